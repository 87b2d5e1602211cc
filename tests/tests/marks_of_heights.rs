//! docs/RULES.md, "Marks and zones": the marks of lent heights, towards rising stations.

use exports::Direction::Rising;
use sight_tests::bare;
use sight_tests::heights;
use sight_tests::lent;
use sight_tests::random::Random;
use sight_tests::reference::file::bytes;
use sight_tests::reference::marks::{marks, runs, EYE, OBJECT};
use sight_tests::reference::road::{Curve, Road};
use sight_tests::reference::sight::{available_sight, whole_heights, Look};
use sight_tests::reference::Answer;
use sight_tests::tally::{Bits, Tally};
use vcp::{DECISION_LACKING, DECISION_NOT_JUDGED, STOPPING_LACKING, STOPPING_NOT_JUDGED};

/// What the distances are asked by.
#[derive(Clone, Copy, Debug)]
struct Drive {
    speed: u32,
    purpose: u32,
    grade: i32,
}

/// The least of what is accepted, on the level.
const SLOW: Drive = Drive { speed: 20, purpose: 1, grade: 0 };

/// The program marks `places` bytes just as the second calculation does, and the rest stays.
fn compare(random: &mut Random, drive: Drive, heights: &[i32], places: usize) -> (Answer, Vec<u8>) {
    let Drive { speed, purpose, grade } = drive;
    let proved = |list: &mut [u8]| bare(exports::marks(speed, purpose, grade, heights, Rising, list));
    let second = |list: &mut [u8]| marks(speed, purpose, grade, heights, list);
    let before = random.list(places, |bits| bits as u8);
    lent::compare(&before, proved, second, format_args!("{drive:?}, {heights:?}"))
}

/// Compares in lists that are one place too short, empty, and long enough. Answers the marks.
fn compare_all(random: &mut Random, drive: Drive, heights: &[i32]) -> Vec<u8> {
    let stations = heights.len();
    assert_eq!(compare(random, drive, heights, stations - 1).0, Err(14));
    assert_eq!(compare(random, drive, heights, 0).0, Err(14));
    let more = random.within(0..=3) as usize;
    let (answer, mut marks) = compare(random, drive, heights, stations + more);
    assert_eq!(answer, Ok(stations as u32));
    marks.truncate(stations);
    marks
}

/// Every bit of every mark says what its letter stands for, by the distances for stopping and for the decision.
fn expect_bits(marks: &[u8], heights: &[i32], stopping: usize, decision: usize) {
    let (whole, last) = (whole_heights(heights), heights.len() - 1);
    for (i, mark) in marks.iter().enumerate() {
        let look = |farthest: usize| Look { eye: EYE, object: OBJECT, farthest: farthest as u32 };
        let sight = |farthest: usize| available_sight(&whole, look(farthest), i);
        let (stopping_judged, decision_judged) = (i + stopping <= last, i + decision <= last);
        let stopping_lacking = stopping_judged && sight(stopping) < stopping;
        let decision_lacking = decision_judged && sight(decision) < decision;
        assert_eq!(mark & 1 != 0, stopping_lacking, "S at {i}");
        assert_eq!(mark & 2 != 0, decision_lacking, "D at {i}");
        assert_eq!(mark & 4 != 0, decision_lacking && stopping_judged && !stopping_lacking, "R at {i}");
        assert_eq!(mark & 8 != 0, !stopping_judged, "s at {i}");
        assert_eq!(mark & 16 != 0, !decision_judged, "d at {i}");
        assert_eq!(mark & 224, 0, "bits 5 to 7 at {i}");
    }
}

/// A ridge that no road may have, up by 15 % to station 100 and down again: on grade 0, where document 01 prints its
/// zones, and on −15 %, where document 02 does.
#[test]
fn bits_of_a_ridge() {
    let mut random = Random::new(22);
    let heights: Vec<i32> = (0..=300).map(|station: i32| 1_500 * (100 - (station - 100).abs())).collect();
    let level: [&[[u32; 2]]; 5] = [&[[83, 95]], &[[78, 96]], &[[78, 82], [96, 96]], &[[281, 300]], &[[276, 300]]];
    let downhill: [&[[u32; 2]]; 5] = [&[[78, 96]], &[[78, 96]], &[], &[[276, 300]], &[[276, 300]]];
    for (grade, stopping, zones) in [(0, 20, level), (-1_500, 25, downhill)] {
        let marks = compare_all(&mut random, Drive { grade, ..SLOW }, &heights);
        expect_bits(&marks, &heights, stopping, 25);
        assert_eq!([0, 1, 2, 3, 4].map(|bit| runs(&marks, bit)), zones, "grade {grade}");
    }
}

/// On the steepest downgrade a driver at 130 km/h needs 430 m to stop and 405 m for decision C. So a station before the crest
/// may lack stopping sight alone; and near the road's end some are judged for the decision and not for stopping: they lack
/// decision sight or have it, and none is in the reduced decision zone, where stopping is judged.
#[test]
fn bits_where_stopping_needs_more_than_the_decision() {
    let road = Road {
        version: 1,
        speed: 130,
        purpose: 3,
        length: 950,
        start_height: 0,
        first_grade: 1_500,
        curves: vec![Curve { pvi: 540, length: 20, grade_out: -1_500 }],
    };
    let (file, drive) = (bytes(&road), Drive { speed: 130, purpose: 3, grade: -1_500 });
    let heights = heights::of_file(&file);
    let mut marks = vec![0; heights.len()];
    assert_eq!(vcp::mark_road_file(&file, &mut marks), Ok(951));
    assert_eq!(marks, compare_all(&mut Random::new(46), drive, &heights));
    expect_bits(&marks, &heights, 430, 405);
    for (stations, mark) in [
        (0..=109, 0),
        (110..=134, STOPPING_LACKING),
        (135..=520, STOPPING_LACKING | DECISION_LACKING),
        (521..=537, DECISION_LACKING | STOPPING_NOT_JUDGED),
        (538..=545, STOPPING_NOT_JUDGED),
        (546..=950, STOPPING_NOT_JUDGED | DECISION_NOT_JUDGED),
    ] {
        assert!(marks[stations.clone()].iter().all(|&own| own == mark), "{mark:05b} from {stations:?}");
    }
}

#[test]
fn random_heights() {
    let mut random = Random::new(37);
    let mut bits = Bits::default();
    for round in 0..5_000 {
        let stations = random.within(1..=120) as usize;
        let heights = match round % 10 {
            0 => heights::of_any_value(&mut random, stations),
            _ => heights::uneven(&mut random, stations),
        };
        // A third are on the level, and some of these fast: at low speed the two formulas seldom differ.
        let grade = if round % 3 == 0 { 0 } else { random.signed_within(-1_500..=1_500) };
        let fastest = if round % 9 == 0 { 130 } else { 35 };
        let drive = Drive { speed: random.within(20..=fastest), purpose: random.within(1..=5), grade };
        bits.count(&compare_all(&mut random, drive, &heights));
    }
    assert!(bits.0[..5].iter().all(|&many| many > 5_000), "{:?}", bits.0);
    assert_eq!(bits.0[5..], [0; 3]);
}

/// Lists that are longer than a road of version 1 has stations, up to the longest: behind 65,535 too there are steps and humps.
#[test]
fn long_lists() {
    let mut random = Random::new(38);
    for stations in [8_001, 8_002, 65_536, 65_537, exports::GREATEST_LIST] {
        let heights = heights::uneven(&mut random, stations);
        let (answer, marks) = compare(&mut random, SLOW, &heights, stations);
        assert_eq!(answer, Ok(stations as u32));
        let judged = &marks[stations - 500..stations - 25];
        assert!(judged.contains(&0) && judged.iter().any(|mark| mark & STOPPING_LACKING != 0), "{stations} stations");
        assert!(marks[stations - 20..].iter().all(|&mark| mark == STOPPING_NOT_JUDGED | DECISION_NOT_JUDGED));
    }
}

#[test]
fn refusals_at_each_edge() {
    let mut random = Random::new(39);
    let flat = vec![0; 100_002];
    for (speed, purpose) in [(20, 1), (20, 5), (130, 1), (130, 5)] {
        for grade in [-1_500, -1, 0, 1, 1_500] {
            let drive = Drive { speed, purpose, grade };
            assert_eq!(compare(&mut random, drive, &flat[..30], 30).0, Ok(30), "{drive:?}");
        }
    }
    for speed in [0, 19, 131, 276, 65_616, u32::MAX] {
        assert_eq!(compare(&mut random, Drive { speed, ..SLOW }, &flat[..30], 30).0, Err(6), "speed {speed}");
    }
    for purpose in [0, 6, 257, 65_537, u32::MAX] {
        assert_eq!(compare(&mut random, Drive { purpose, ..SLOW }, &flat[..30], 30).0, Err(7), "purpose {purpose}");
    }
    for grade in [i32::MIN, -65_536, -1_501, 1_501, 65_536, i32::MAX] {
        for purpose in [1, 2, 3, 5] {
            let drive = Drive { purpose, grade, ..SLOW };
            assert_eq!(compare(&mut random, drive, &flat[..30], 30).0, Err(10), "{drive:?}");
        }
    }
    let accepted = [1, 8_001, 8_002, 65_536, 100_001].map(|stations| (stations, Ok(stations as u32)));
    for (stations, answer) in accepted.into_iter().chain([(0, Err(19)), (100_002, Err(19))]) {
        assert_eq!(compare(&mut random, SLOW, &flat[..stations], 100_002).0, answer, "{stations} stations");
    }
    for (places, answer) in [(0, Err(14)), (29, Err(14)), (30, Ok(30)), (31, Ok(30))] {
        assert_eq!(compare(&mut random, SLOW, &flat[..30], places).0, answer, "{places} places");
    }
}

/// With more than one fault the first of 6, 7, 10, 19, 14 decides.
#[test]
fn refusals_in_order() {
    let mut random = Random::new(40);
    let mut tally = Tally::default();
    for faults in 0..32 {
        let has = |fault: u32| faults >> fault & 1 == 1;
        let drive = Drive {
            speed: if has(0) { random.one_of(&[19, 131]) } else { 20 },
            purpose: if has(1) { random.one_of(&[0, 6]) } else { 1 },
            grade: if has(2) { random.one_of(&[-1_501, 1_501]) } else { -1_500 },
        };
        let heights = vec![0; if has(3) { 100_002 } else { 20 }];
        let places = heights.len() - usize::from(has(4));
        let first = (0..).zip([6, 7, 10, 19, 14]).find(|&(fault, _)| has(fault));
        let expected = first.map_or(Ok(20), |(_, refusal)| Err(refusal));
        let (answer, _) = compare(&mut random, drive, &heights, places);
        assert_eq!(answer, expected, "{faults:05b}");
        tally.count(answer);
    }
    assert_eq!([6, 7, 10, 19, 14].map(|refusal| tally.refused(refusal)), [16, 8, 4, 2, 1]);
}
