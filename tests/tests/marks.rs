//! docs/RULES.md, "Marks and zones": the marking of a road file, by the van and by the library.

use exports::Direction::Rising;
use sight_tests::bare;
use sight_tests::lent;
use sight_tests::quick;
use sight_tests::random::Random;
use sight_tests::reference::distances::required_distance;
use sight_tests::reference::file::{bytes, read, read_short};
use sight_tests::reference::marks::{mark_file, mark_road_file, runs};
use sight_tests::reference::road::{Curve, Road};
use sight_tests::reference::Answer;
use sight_tests::roads::{self, in_version};
use sight_tests::roads::{EXAMPLE, EXAMPLE_VERSION_2, LONG_EXAMPLE, REFUSALS, VERSIONS};
use sight_tests::tally::{Bits, Tally};
use vcp::{DECISION_LACKING, DECISION_NOT_JUDGED, REDUCED_DECISION, STOPPING_LACKING, STOPPING_NOT_JUDGED};

/// The van marks `places` bytes just as the second calculation does, and the rest stays.
fn compare_van(random: &mut Random, file: &[u8], places: usize) -> (Answer, Vec<u8>) {
    let proved = |list: &mut [u8]| bare(vcp::mark_road_file(file, list));
    let second = |list: &mut [u8]| mark_road_file(file, list);
    lent::compare(&random.list(places, |bits| bits as u8), proved, second, format_args!("{file:02X?}"))
}

/// The library marks `places` bytes just as another calculation does, and the rest stays.
fn compare_library(
    random: &mut Random,
    file: &[u8],
    places: usize,
    second: impl FnOnce(&mut [u8]) -> Answer,
) -> (Answer, Vec<u8>) {
    let proved = |list: &mut [u8]| bare(exports::mark_file(file, Rising, list));
    lent::compare(&random.list(places, |bits| bits as u8), proved, second, format_args!("{file:02X?}"))
}

/// A road that the van takes is marked alike by both.
fn compare(random: &mut Random, file: &[u8], places: usize) -> (Answer, Vec<u8>) {
    let (answer, marks) = compare_van(random, file, places);
    let written = answer.map_or(0, |stations| stations as usize);
    let as_the_van = |list: &mut [u8]| {
        list[..written].copy_from_slice(&marks[..written]);
        answer
    };
    assert_eq!(compare_library(random, file, places, as_the_van).0, answer);
    (answer, marks)
}

/// Compares an accepted file in buffers that are one place too short, empty, and long enough. Answers the marks.
fn compare_accepted(random: &mut Random, file: &[u8]) -> Vec<u8> {
    let stations = read(file).expect("the road is accepted").length as usize + 1;
    assert_eq!(compare(random, file, stations - 1).0, Err(14));
    assert_eq!(compare(random, file, 0).0, Err(14));
    let more = random.within(0..=3) as usize;
    let (answer, mut marks) = compare(random, file, stations + more);
    assert_eq!(answer, Ok(stations as u32));
    marks.truncate(stations);
    marks
}

/// Compares the file of a road that is too long for the van, whatever is lent. The library's marks are compared with the quick
/// calculation, which another test compares with the literal one. Answers the marks.
fn compare_long(random: &mut Random, file: &[u8]) -> Vec<u8> {
    let stations = read(file).expect("the road is accepted").length as usize + 1;
    for places in [0, 301, stations] {
        assert_eq!(compare_van(random, file, places).0, Err(8));
    }
    for places in [stations - 1, 8_001.min(stations - 1), 0] {
        assert_eq!(compare_library(random, file, places, |list| quick::mark_file(file, list)).0, Err(14));
    }
    let more = random.within(0..=3) as usize;
    let (answer, mut marks) = compare_library(random, file, stations + more, |list| quick::mark_file(file, list));
    assert_eq!(answer, Ok(stations as u32));
    marks.truncate(stations);
    marks
}

#[test]
fn example_of_the_rules() {
    let marks = compare_accepted(&mut Random::new(26), &EXAMPLE);
    assert_eq!(marks, compare_accepted(&mut Random::new(26), &EXAMPLE_VERSION_2), "in version 2");
    let zones: [&[[u32; 2]]; 8] = [
        &[[58, 87], [123, 148]],
        &[[48, 87], [115, 149]],
        &[[48, 57], [115, 122], [149, 149]],
        &[[251, 300]],
        &[[241, 300]],
        &[],
        &[],
        &[],
    ];
    for (bit, zones) in (0..).zip(zones) {
        assert_eq!(runs(&marks, bit), zones, "bit {bit}");
    }
}

/// Runs of short crests and sags close behind each other, with a straight behind them so that they are judged.
#[test]
fn random_runs_of_short_crests() {
    let mut random = Random::new(27);
    let mut bits = Bits::default();
    for round in 0..30_000 {
        // Most are short, so that there can be many.
        let most = if round % 20 == 0 { 150 } else { 24 };
        let room = random.within(2..=most);
        let mut road = roads::run_of_crests(&mut random, room);
        road.length += random.within(0..=most);
        road.speed = random.one_of(&[20, 21, 25, 30, 35, 40, 50, 60]);
        bits.count(&compare_accepted(&mut random, &bytes(&road)));
    }
    assert!(bits.0[..5].iter().all(|&many| many > 4_000), "{:?}", bits.0);
    assert_eq!(bits.0[5..], [0; 3]);
}

#[test]
fn random_roads_of_every_kind() {
    let mut random = Random::new(28);
    let mut bits = Bits::default();
    for _ in 0..1_000 {
        let mut road = roads::any_road(&mut random);
        if road.length > 200 {
            road.speed = random.within(20..=30) as u8;
        }
        bits.count(&compare_accepted(&mut random, &bytes(&road)));
    }
    assert!(bits.0[..5].iter().all(|&many| many > 1_000), "{:?}", bits.0);
    assert_eq!(bits.0[5..], [0; 3]);
}

/// The crest from 99,891 to 99,909 of the example of 100 km; the sag far before it hides nothing. It needs 50 m to stop and 60 m to
/// decide. By hand, in h-units above the crest's begin: from 99,848 the eye is at -25,800 + 10,800 and the object, 60 m ahead at
/// 99,908, at 566 + 6,000. Over 99,895, where the road is at 1,866, the line is at (-15,000 · 13 + 6,566 · 47) / 60, which is 1,893. From
/// 99,849 it is at (-14,400 · 14 + 6,000 · 46) / 60, which is 1,240: so decision sight lacks from there on.
#[test]
fn example_of_100_km() {
    let marks = compare_long(&mut Random::new(14), &LONG_EXAMPLE);
    let zones: [&[[u32; 2]]; 5] = [
        &[[99_860, 99_887]],
        &[[99_849, 99_888]],
        &[[99_849, 99_859], [99_888, 99_888]],
        &[[99_951, 100_000]],
        &[[99_941, 100_000]],
    ];
    assert_eq!([0, 1, 2, 3, 4].map(|bit| runs(&marks, bit)), zones);
}

/// Runs of short crests and sags far out: over and behind stations that two bytes do not hold.
#[test]
fn random_runs_of_short_crests_far_out() {
    let mut random = Random::new(13);
    let mut bits = Bits::default();
    for _ in 0..40 {
        let room = random.within(20..=150);
        let mut road = roads::steeper(roads::far_run_of_crests(&mut random, room));
        road.speed = random.within(20..=40) as u8;
        let marks = compare_long(&mut random, &bytes(&road));
        bits.count(marks.get(65_536..).unwrap_or_default());
    }
    assert!(bits.0[..5].iter().all(|&many| many > 100), "{:?}", bits.0);
}

/// Long roads of every kind, at any speed.
#[test]
fn random_long_roads() {
    let mut random = Random::new(12);
    for _ in 0..10 {
        let road = roads::any_long_road(&mut random);
        compare_long(&mut random, &bytes(&road));
    }
}

/// The longest road of all, by the literal rule.
#[test]
fn longest_road_of_all() {
    let mut random = Random::new(11);
    let mut road = roads::longest_of_all(&mut random);
    road.speed = 20;
    let file = bytes(&road);
    let (answer, _) = compare_library(&mut random, &file, exports::LONG_STATIONS, |list| mark_file(&file, list));
    assert_eq!(answer, Ok(100_001));
}

/// The same road in either version has the same marks.
#[test]
fn a_road_in_both_versions() {
    let mut random = Random::new(10);
    for _ in 0..300 {
        let room = random.within(2..=150);
        let mut road = roads::run_of_crests(&mut random, room);
        road.length += random.within(0..=60);
        road.speed = random.within(20..=40) as u8;
        let [one, other] = VERSIONS.map(|version| bytes(&in_version(version, &road)));
        assert_eq!(compare_accepted(&mut random, &one), compare_accepted(&mut random, &other), "{road:?}");
    }
}

/// The van refuses a road over 8,000 m by 8, in the place where 8 is tested: a fault that is tested before decides, and one that
/// is tested behind it does not. The library takes the road, or refuses it by its other fault.
#[test]
fn roads_that_are_too_long_for_the_van() {
    let mut random = Random::new(9);
    for roads::LongFile { file, short, read } in roads::long_files(&mut random) {
        let places = random.one_of(&[0, 301, 8_001, 100_001]);
        assert_eq!(compare_van(&mut random, &file, places).0, Err(short), "{file:02X?}");
        match read {
            None => drop(compare_long(&mut random, &file)),
            Some(refusal) => {
                let (answer, _) = compare_library(&mut random, &file, places, |list| mark_file(&file, list));
                assert_eq!(answer, Err(refusal), "{file:02X?}");
            }
        }
    }
}

/// Every speed and purpose, marked on the level and on the steepest downgrade, on a road that begins with a crest and is just
/// long enough to be judged there for the decision. Where stopping needs more, some stations are judged for the decision alone.
#[test]
fn every_speed_and_purpose() {
    let mut random = Random::new(29);
    let cases =
        [(0, [900, 1_000, 150, 50_000, 100_000], 0..=0), (-1_500, [2_000, 2_000, 30, 50_000, 50_000], 81..=usize::MAX)];
    for (grade_out, least, alone) in cases {
        let mut bits = Bits::default();
        let mut decision_alone = 0;
        for speed in 20..=130 {
            for purpose in 1..=5 {
                let required = required_distance(speed, purpose, grade_out.into());
                let road = Road {
                    version: random.one_of(&VERSIONS),
                    speed: speed as u8,
                    purpose: purpose as u8,
                    length: required.expect("speed and purpose are accepted") + 12,
                    start_height: 0,
                    first_grade: 1_500,
                    curves: vec![Curve { pvi: 9, length: 4, grade_out }],
                };
                let marks = compare_accepted(&mut random, &bytes(&road));
                bits.count(&marks);
                let not_judged = marks.iter().map(|mark| mark & (STOPPING_NOT_JUDGED | DECISION_NOT_JUDGED));
                decision_alone += not_judged.filter(|&bits| bits == STOPPING_NOT_JUDGED).count();
            }
        }
        assert!(bits.0.iter().zip(least).all(|(&many, least)| many > least), "{:?}", bits.0);
        assert!(alone.contains(&decision_alone), "{decision_alone} stations");
    }
}

/// Stations near the road's end are not judged: on a straight nothing is lacking, and the last R stations say so.
#[test]
fn near_the_end_nothing_is_lacking() {
    let mut random = Random::new(30);
    for length in 1..=80 {
        let version = random.one_of(&VERSIONS);
        let road =
            Road { version, speed: 30, purpose: 1, length, start_height: 0, first_grade: -1_500, curves: vec![] };
        let marks = compare_accepted(&mut random, &bytes(&road));
        let required = |purpose: u32| required_distance(30, purpose, -1_500).expect("all three are accepted");
        let [stopping, decision] = [0, 1].map(required);
        for (i, mark) in (0..).zip(marks) {
            let no_stopping = if i + stopping > length { STOPPING_NOT_JUDGED } else { 0 };
            let no_decision = if i + decision > length { DECISION_NOT_JUDGED } else { 0 };
            assert_eq!(mark, no_stopping | no_decision, "station {i} of {length}");
        }
    }
}

/// The run of three short crests at 90 km/h (see the tests of sight): station 194 lacks stopping sight.
#[test]
fn hump_behind_a_short_crest() {
    let road = roads::three_short_crests();
    let marks = compare_accepted(&mut Random::new(31), &bytes(&road));
    assert_eq!(marks[194] & (STOPPING_LACKING | REDUCED_DECISION | STOPPING_NOT_JUDGED), STOPPING_LACKING);
    assert!(marks.iter().any(|mark| mark & DECISION_LACKING != 0));
}

#[test]
fn longest_road() {
    let mut random = Random::new(32);
    let mut road = roads::longest(&mut random);
    road.speed = 30;
    assert_eq!(compare_accepted(&mut random, &bytes(&road)).len(), vcp::MOST_STATIONS);
}

/// A file is refused as reading refuses it, whatever the buffer is.
#[test]
fn refused_files() {
    let mut random = Random::new(33);
    let mut tally = Tally::default();
    for _ in 0..75_000 {
        let file = roads::doubtful_file(&mut random);
        // A good one is left to the other tests.
        let Err(refusal) = read_short(&file) else { continue };
        let places = random.one_of(&[0, 1, 300, 9_000]);
        let (answer, _) = compare_van(&mut random, &file, places);
        assert_eq!(answer, Err(refusal));
        tally.count(answer);
        if let Err(refusal) = read(&file) {
            let (answer, _) = compare_library(&mut random, &file, places, |list| mark_file(&file, list));
            assert_eq!(answer, Err(refusal));
        }
    }
    for refusal in REFUSALS {
        assert!(tally.refused(refusal) > 1_000, "{} refused {refusal}", tally.refused(refusal));
    }
}
