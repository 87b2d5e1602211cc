//! Document 02, P11, "The lane coming back": marks towards falling stations, of lent heights and of road files, the grade that a road
//! is marked with and the distances that it requires that way, and zones.

use exports::Direction::{Falling, Rising};
use sight_tests::bare;
use sight_tests::heights;
use sight_tests::lent;
use sight_tests::random::Random;
use sight_tests::reference::back::{file_distance, file_grade, mark_file, marks};
use sight_tests::reference::distances::required_distance;
use sight_tests::reference::file::{bytes, read};
use sight_tests::reference::marks::{runs, zones};
use sight_tests::reference::road::{Curve, Road};
use sight_tests::reference::Answer;
use sight_tests::roads::{self, in_version};
use sight_tests::roads::{EXAMPLE, EXAMPLE_VERSION_2, LONG_EXAMPLE, REFUSALS, VERSIONS};
use sight_tests::tally::{Bits, Tally};
use vcp::{DECISION_LACKING, DECISION_NOT_JUDGED, STOPPING_LACKING, STOPPING_NOT_JUDGED};

/// What the distances are asked by; the grade is that of rising stations.
#[derive(Clone, Copy, Debug)]
struct Drive {
    speed: u32,
    purpose: u32,
    grade: i32,
}

/// The least of what is accepted, on the level.
const SLOW: Drive = Drive { speed: 20, purpose: 1, grade: 0 };

/// The program marks `places` bytes just as the second calculation does, and the rest stays.
fn compare(random: &mut Random, drive: Drive, heights: &[i32], places: usize) -> (Answer, Vec<u8>) {
    let Drive { speed, purpose, grade } = drive;
    let proved = |list: &mut [u8]| bare(exports::marks(speed, purpose, grade, heights, Falling, list));
    let second = |list: &mut [u8]| marks(speed, purpose, grade, heights, list);
    let before = random.list(places, |bits| bits as u8);
    lent::compare(&before, proved, second, format_args!("{drive:?}, {heights:?}"))
}

/// Compares in lists that are one place too short, empty, and long enough. Answers the marks.
fn compare_all(random: &mut Random, drive: Drive, heights: &[i32]) -> Vec<u8> {
    let stations = heights.len();
    assert_eq!(compare(random, drive, heights, stations - 1).0, Err(14));
    assert_eq!(compare(random, drive, heights, 0).0, Err(14));
    let more = random.within(0..=3) as usize;
    let (answer, mut marks) = compare(random, drive, heights, stations + more);
    assert_eq!(answer, Ok(stations as u32));
    marks.truncate(stations);
    marks
}

/// The same of the marking of a file.
fn compare_file(random: &mut Random, file: &[u8], places: usize) -> (Answer, Vec<u8>) {
    let proved = |list: &mut [u8]| bare(exports::mark_file(file, Falling, list));
    let before = random.list(places, |bits| bits as u8);
    lent::compare(&before, proved, |list| mark_file(file, list), format_args!("{file:02X?}"))
}

/// The grade of a file's road and the distances that it requires are those of the second calculation. Answers the grade.
fn compare_grade(file: &[u8]) -> Result<i32, u32> {
    let answer = exports::file_grade(file, Falling).map_err(|refusal| refusal.number());
    assert_eq!(answer, file_grade(file), "{file:02X?}");
    for purpose in (0..=6).chain([257, u32::MAX]) {
        let own = bare(exports::file_distance(file, Falling, purpose));
        assert_eq!(own, file_distance(file, purpose), "{purpose}: {file:02X?}");
    }
    answer
}

/// Compares an accepted file in lists that are one place too short, empty, and long enough; the marks are those of its heights on its
/// grade. Answers them.
fn compare_accepted(random: &mut Random, file: &[u8]) -> Vec<u8> {
    let road = read(file).expect("the road is accepted");
    let stations = road.length as usize + 1;
    for places in [stations - 1, 0] {
        assert_eq!(compare_file(random, file, places).0, Err(14));
    }
    let more = random.within(0..=3) as usize;
    let (answer, mut marks) = compare_file(random, file, stations + more);
    assert_eq!(answer, Ok(stations as u32));
    marks.truncate(stations);
    let grade = compare_grade(file).expect("the road is accepted");
    let mut of_heights = vec![0; stations];
    let (speed, purpose) = (road.speed.into(), road.purpose.into());
    exports::marks(speed, purpose, grade, &heights::of_file(file), Falling, &mut of_heights).expect("they are marked");
    assert_eq!(marks, of_heights, "{road:?}");
    compare_zones(&marks);
    marks
}

/// The zones of each bit, ascending by station from the start of the road.
fn compare_zones(marks: &[u8]) {
    for bit in 0..5 {
        let list = vec![u32::MAX; 2 * runs(marks, bit).len() + 1];
        let proved = |list: &mut [u32]| bare(exports::zones(marks, bit, list));
        let (_, ends) = lent::compare(&list, proved, |list| zones(marks, bit, list), format_args!("{marks:?}"));
        assert!(ends.windows(2).all(|pair| pair[0] <= pair[1]), "{ends:?}");
    }
}

/// The zones of the letters S, D, R, s and d.
fn letters(marks: &[u8]) -> [Vec<[u32; 2]>; 5] {
    [0, 1, 2, 3, 4].map(|bit| runs(marks, bit))
}

/// The cases of the rules: a road at 90 km/h that climbs by 6 %, and 22 level stations at 20 km/h, of which the last two have 20 m before
/// them; with 9 %, which falls on the way back, stopping takes 25 m.
#[test]
fn cases_of_the_rules() {
    let mut random = Random::new(159);
    let climb = bytes(&Road { length: 100, ..road(600, &[]) });
    assert_eq!([Rising, Falling].map(|direction| exports::file_distance(&climb, direction, 0)), [Ok(160), Ok(175)]);
    assert_eq!(compare_grade(&climb), Ok(600));
    let (stopping, decision) = (STOPPING_NOT_JUDGED, DECISION_NOT_JUDGED);
    let level = [0; 22];
    let marks = |random: &mut Random, grade: i32| compare_all(random, Drive { grade, ..SLOW }, &level);
    assert_eq!(marks(&mut random, 0), [[stopping | decision; 20].as_slice(), &[decision; 2]].concat());
    assert_eq!(marks(&mut random, 900), [stopping | decision; 22]);
    assert_eq!(compare(&mut random, Drive { grade: 1_501, ..SLOW }, &level, 22).0, Err(10));
}

/// A ridge up by 15 % to station 100 and down again, for a driver who comes back from station 300. The stations from 101 to 300 see as the
/// first 100 do on the way there, 200 - i for i: so the zones S 83 to 95 and D 78 to 96 of document 01 on the level are S 105 to 117 and
/// D 104 to 122. On a grade of +15 % as for rising stations, which is driven down, stopping takes 25 m, too; on -15 %, which is driven
/// up, the decision takes 20 m, too.
#[test]
fn bits_of_a_ridge() {
    let mut random = Random::new(160);
    let heights: Vec<i32> = (0..=300).map(|station: i32| 1_500 * (100 - (station - 100).abs())).collect();
    let level: [&[[u32; 2]]; 5] = [&[[105, 117]], &[[104, 122]], &[[104, 104], [118, 122]], &[[0, 19]], &[[0, 24]]];
    let downhill: [&[[u32; 2]]; 5] = [&[[104, 122]], &[[104, 122]], &[], &[[0, 24]], &[[0, 24]]];
    let uphill: [&[[u32; 2]]; 5] = [&[[105, 117]], &[[105, 117]], &[], &[[0, 19]], &[[0, 19]]];
    for (grade, zones) in [(0, level), (1_500, downhill), (-1_500, uphill)] {
        let marks = compare_all(&mut random, Drive { grade, ..SLOW }, &heights);
        assert_eq!(letters(&marks), zones, "grade {grade}");
    }
}

/// A grade and its opposite, as for rising stations, need other distances, and which of them is longer goes by the direction.
#[test]
fn sign_of_the_grade() {
    let mut random = Random::new(161);
    let level = vec![0; 601];
    let not_judged = |random: &mut Random, speed: u32, grade: i32| {
        let marks = compare_all(random, Drive { speed, grade, ..SLOW }, &level);
        let many = |bit: u8| marks.iter().filter(|&&mark| mark & bit != 0).count() as u32;
        let there = marks.iter().position(|mark| mark & STOPPING_NOT_JUDGED == 0).expect("it is long enough") as u32;
        assert_eq!(many(STOPPING_NOT_JUDGED), there, "those at the start are not judged, and no other");
        [many(STOPPING_NOT_JUDGED), many(DECISION_NOT_JUDGED)]
    };
    for (speed, grade) in [(90, 300), (90, 600), (130, 1_500), (60, 900), (20, 1_500)] {
        let driven = |grade: i32| [0, 1].map(|purpose| required_distance(speed, purpose, grade).expect("in range"));
        assert_eq!(not_judged(&mut random, speed, grade), driven(-grade), "{speed} km/h, {grade}");
        assert_eq!(not_judged(&mut random, speed, -grade), driven(grade), "{speed} km/h, {grade}");
        assert!(driven(-grade)[0] > driven(grade)[0], "{speed} km/h, {grade}");
    }
    assert_eq!(not_judged(&mut random, 90, 300), [165, 180]);
}

/// The distance in either direction, for every speed and purpose and for grades of either sign, each edge and beyond: backward it is that of
/// the opposite grade, and the range is that of the grade as it is handed over, up to what has no opposite.
#[test]
fn distance_of_every_drive() {
    let grades = [i32::MIN, -1_501, -1_500, -601, -33, -1, 0, 1, 33, 600, 1_500, 1_501, i32::MAX];
    let mut answered = 0;
    for speed in 19..=131 {
        for purpose in 0..=6 {
            for grade in grades {
                let both =
                    [Rising, Falling].map(|direction| bare(exports::driven_distance(speed, purpose, grade, direction)));
                let driven = grade.checked_neg().unwrap_or(grade);
                let expected = [grade, driven].map(|grade| required_distance(speed, purpose, grade));
                assert_eq!(both, expected, "{speed} km/h, purpose {purpose}, grade {grade}");
                answered += both.iter().flatten().count();
            }
        }
    }
    assert_eq!(answered, 111 * 6 * 9 * 2);
    assert_eq!(exports::driven_distance(90, 0, 600, Falling), Ok(175));
}

#[test]
fn random_heights() {
    let mut random = Random::new(162);
    let (mut bits, mut not_as_rising, mut by_the_sign) = (Bits::default(), 0, 0);
    for round in 0..5_000 {
        let stations = random.within(1..=120) as usize;
        let heights = match round % 10 {
            0 => heights::of_any_value(&mut random, stations),
            _ => heights::uneven(&mut random, stations),
        };
        let grade = if round % 3 == 0 { 0 } else { random.signed_within(-1_500..=1_500) };
        let fastest = if round % 9 == 0 { 130 } else { 35 };
        let drive = Drive { speed: random.within(20..=fastest), purpose: random.within(1..=5), grade };
        let marks = compare_all(&mut random, drive, &heights);
        bits.count(&marks);
        let mut others = vec![0; stations];
        exports::marks(drive.speed, drive.purpose, -grade, &heights, Rising, &mut others).expect("they are marked");
        not_as_rising += usize::from(marks != others);
        by_the_sign += usize::from(compare_all(&mut random, Drive { grade: -grade, ..drive }, &heights) != marks);
        compare_zones(&marks);
    }
    assert!(bits.0[..5].iter().all(|&many| many > 5_000), "{:?}", bits.0);
    assert_eq!(bits.0[5..], [0; 3]);
    assert!(not_as_rising > 3_000 && by_the_sign > 1_000, "{not_as_rising}, {by_the_sign}");
}

/// Lists that are longer than a road of version 1 has stations, up to the longest: behind 65,535 too there are steps and humps.
#[test]
fn long_lists() {
    let mut random = Random::new(163);
    for stations in [8_001, 8_002, 65_536, 65_537, exports::GREATEST_LIST] {
        let heights = heights::uneven(&mut random, stations);
        let (answer, marks) = compare(&mut random, SLOW, &heights, stations);
        assert_eq!(answer, Ok(stations as u32));
        let judged = &marks[stations - 500..];
        assert!(judged.contains(&0) && judged.iter().any(|mark| mark & STOPPING_LACKING != 0), "{stations} stations");
        assert!(marks[..20].iter().all(|&mark| mark == STOPPING_NOT_JUDGED | DECISION_NOT_JUDGED));
        assert!(marks[25..].iter().all(|&mark| mark & (STOPPING_NOT_JUDGED | DECISION_NOT_JUDGED) == 0));
    }
}

#[test]
fn refusals_at_each_edge() {
    let mut random = Random::new(164);
    let flat = vec![0; 100_002];
    for (speed, purpose) in [(20, 1), (20, 5), (130, 1), (130, 5)] {
        for grade in [-1_500, -1, 0, 1, 1_500] {
            let drive = Drive { speed, purpose, grade };
            assert_eq!(compare(&mut random, drive, &flat[..30], 30).0, Ok(30), "{drive:?}");
        }
    }
    for speed in [0, 19, 131, 276, 65_616, u32::MAX] {
        assert_eq!(compare(&mut random, Drive { speed, ..SLOW }, &flat[..30], 30).0, Err(6), "speed {speed}");
    }
    for purpose in [0, 6, 257, 65_537, u32::MAX] {
        assert_eq!(compare(&mut random, Drive { purpose, ..SLOW }, &flat[..30], 30).0, Err(7), "purpose {purpose}");
    }
    // The least of all has no opposite.
    for grade in [i32::MIN, i32::MIN + 1, -65_536, -1_501, 1_501, 65_536, i32::MAX] {
        for purpose in [1, 2, 3, 5] {
            let drive = Drive { purpose, grade, ..SLOW };
            assert_eq!(compare(&mut random, drive, &flat[..30], 30).0, Err(10), "{drive:?}");
        }
    }
    let accepted = [1, 8_001, 8_002, 65_536, 100_001].map(|stations| (stations, Ok(stations as u32)));
    for (stations, answer) in accepted.into_iter().chain([(0, Err(19)), (100_002, Err(19))]) {
        assert_eq!(compare(&mut random, SLOW, &flat[..stations], 100_002).0, answer, "{stations} stations");
    }
    for (places, answer) in [(0, Err(14)), (29, Err(14)), (30, Ok(30)), (31, Ok(30))] {
        assert_eq!(compare(&mut random, SLOW, &flat[..30], places).0, answer, "{places} places");
    }
}

/// With more than one fault the first of 6, 7, 10, 19, 14 decides.
#[test]
fn refusals_in_order() {
    let mut random = Random::new(165);
    let mut tally = Tally::default();
    for faults in 0..32 {
        let has = |fault: u32| faults >> fault & 1 == 1;
        let drive = Drive {
            speed: if has(0) { random.one_of(&[19, 131]) } else { 20 },
            purpose: if has(1) { random.one_of(&[0, 6]) } else { 1 },
            grade: if has(2) { random.one_of(&[-1_501, 1_501, i32::MIN]) } else { 1_500 },
        };
        let heights = vec![0; if has(3) { 100_002 } else { 20 }];
        let places = heights.len() - usize::from(has(4));
        let first = (0..).zip([6, 7, 10, 19, 14]).find(|&(fault, _)| has(fault));
        let expected = first.map_or(Ok(20), |(_, refusal)| Err(refusal));
        let (answer, _) = compare(&mut random, drive, &heights, places);
        assert_eq!(answer, expected, "{faults:05b}");
        tally.count(answer);
    }
    assert_eq!([6, 7, 10, 19, 14].map(|refusal| tally.refused(refusal)), [16, 8, 4, 2, 1]);
}

/// The examples rise by 6 % at most. So the way back needs 50 m to stop and 60 m to decide, as the way there does. Of the example of 100 km
/// the crest of 18 m about 99,900 has its like on both sides: the zones there, 99,860 to 99,887 and 99,849 to 99,888, are 199,800 less
/// these; and nothing else is hidden.
#[test]
fn examples() {
    let mut random = Random::new(166);
    for file in [&EXAMPLE[..], &EXAMPLE_VERSION_2, &LONG_EXAMPLE] {
        assert_eq!(compare_grade(file), Ok(600));
        assert_eq!([0, 1].map(|purpose| exports::file_distance(file, Falling, purpose)), [Ok(50), Ok(60)]);
    }
    let marks = compare_accepted(&mut random, &EXAMPLE);
    assert_eq!(marks, compare_accepted(&mut random, &EXAMPLE_VERSION_2), "in version 2");
    assert_eq!(letters(&marks)[3..], [vec![[0, 49]], vec![[0, 59]]]);
    let zones: [&[[u32; 2]]; 5] =
        [&[[99_913, 99_940]], &[[99_912, 99_951]], &[[99_912, 99_912], [99_941, 99_951]], &[[0, 49]], &[[0, 59]]];
    assert_eq!(letters(&compare_accepted(&mut random, &LONG_EXAMPLE)), zones);
}

/// Runs of short crests and sags close behind each other, with a straight before them or behind them so that they are judged.
#[test]
fn runs_of_short_crests() {
    let mut random = Random::new(167);
    let mut bits = Bits::default();
    for round in 0..15_000 {
        let most = if round % 20 == 0 { 150 } else { 24 };
        let room = random.within(2..=most);
        let mut road = roads::run_of_crests(&mut random, room);
        let straight = random.within(0..=most);
        road = match round % 2 {
            0 => Road { length: road.length + straight, ..road },
            _ => in_version(random.one_of(&VERSIONS), &roads::moved(road, straight)),
        };
        road.speed = random.one_of(&[20, 21, 25, 30, 35, 40, 50, 60]);
        bits.count(&compare_accepted(&mut random, &bytes(&road)));
    }
    assert!(bits.0[..5].iter().all(|&many| many > 1_500), "{:?}", bits.0);
    assert_eq!(bits.0[5..], [0; 3]);
}

/// The same far out, and roads of every other kind.
#[test]
fn roads_of_every_kind() {
    let mut random = Random::new(168);
    let (mut bits, mut far) = (Bits::default(), Bits::default());
    for round in 0..500 {
        let mut road = match round % 50 {
            0 => roads::steeper(roads::far_run_of_crests(&mut random, 150)),
            1 => roads::any_long_road(&mut random),
            _ => roads::any_road(&mut random),
        };
        if road.length > 200 {
            road.speed = random.within(20..=30) as u8;
        }
        let marks = compare_accepted(&mut random, &bytes(&road));
        bits.count(&marks);
        far.count(marks.get(8_001..).unwrap_or_default());
    }
    assert!(bits.0[..5].iter().all(|&many| many > 500), "{:?}", bits.0);
    assert!(far.0[..3].iter().all(|&many| many > 10), "{:?}", far.0);
}

/// The longest road of all is marked to its last station.
#[test]
fn longest_road_of_all() {
    let mut random = Random::new(169);
    let road = Road { speed: 20, ..roads::longest_of_all(&mut random) };
    assert_eq!(compare_accepted(&mut random, &bytes(&road)).len(), exports::LONG_STATIONS);
}

/// Every speed and purpose, on a road that ends with a crest, which the way back begins with, and is just long enough to be judged there.
#[test]
fn every_speed_and_purpose() {
    let mut random = Random::new(170);
    let mut bits = Bits::default();
    for speed in 20..=130 {
        for purpose in 1..=5 {
            let needed = required_distance(speed, purpose, -1_500).expect("speed and purpose are accepted");
            let road = Road {
                version: random.one_of(&VERSIONS),
                speed: speed as u8,
                purpose: purpose as u8,
                length: needed + 12,
                start_height: 0,
                first_grade: 1_500,
                curves: vec![Curve { pvi: needed + 3, length: 4, grade_out: -1_500 }],
            };
            bits.count(&compare_accepted(&mut random, &bytes(&road)));
        }
    }
    assert!(bits.0[..5].iter().all(|&many| many > 20), "{:?}", bits.0);
}

/// An accepted road with a first grade and short curves to these grades, the last of them up to the road's end.
fn road(first_grade: i16, grades: &[i16]) -> Road {
    let length = 10 * grades.len().max(1) as u32;
    let curves = (1..).zip(grades).map(|(place, &grade_out)| Curve { pvi: 10 * place - 1, length: 2, grade_out });
    Road { version: 1, speed: 90, purpose: 1, length, start_height: 0, first_grade, curves: curves.collect() }
}

/// The greatest grade counts wherever it stands: as the first grade and as the grade out of each of the curves.
#[test]
fn greatest_grade_at_every_place() {
    let mut random = Random::new(171);
    for curves in [0, 1, 2, 31, 32] {
        for place in 0..=curves {
            let greatest = random.of_any_size(1_500) as i16;
            let below = random.one_of(&[greatest - 1, 0, -1_500]);
            let mut grades = vec![below; curves + 1];
            grades[place] = greatest;
            let road = road(grades[0], &grades[1..]);
            assert_eq!(compare_grade(&bytes(&road)), Ok(greatest.into()), "{road:?}");
        }
    }
}

/// Where none is positive it is 0, also where all are negative; and every grade that a road may have, alone.
#[test]
fn every_grade() {
    for curves in [0, 1, 2, 31, 32] {
        for grade in [0, -1, -1_500] {
            assert_eq!(compare_grade(&bytes(&road(grade, &vec![grade; curves]))), Ok(0), "{curves}, grade {grade}");
        }
        assert_eq!(compare_grade(&bytes(&road(-1_500, &vec![-1; curves]))), Ok(0), "{curves} curves");
    }
    for grade in -1_500..=1_500 {
        let expected = Ok(i32::from(grade).max(0));
        assert_eq!(compare_grade(&bytes(&road(grade, &[]))), expected);
        assert_eq!(compare_grade(&bytes(&road(-1_500, &[grade]))), expected);
    }
}

/// A grade counts even where no metre of the road has it. At 90 km/h a road that is driven down by 0.01 % needs 5 m less to stop than a
/// level one.
#[test]
fn grades_that_no_metre_has() {
    let broken = |pvi: u32, grade_out: i16| Curve { pvi, length: 0, grade_out };
    let with = |curves: &[Curve]| bytes(&Road { length: 300, curves: curves.to_vec(), ..road(0, &[]) });
    let stopping = |file: &[u8]| exports::file_distance(file, Falling, 0);
    assert_eq!(stopping(&with(&[])), Ok(160));
    for curves in [&[broken(300, 1)][..], &[broken(100, 1), broken(100, 0)]] {
        assert_eq!((compare_grade(&with(curves)), stopping(&with(curves))), (Ok(1), Ok(155)), "{curves:?}");
    }
    assert_eq!(stopping(&with(&[broken(300, -1)])), Ok(160), "which is driven up");
}

/// The first stations, from which a distance does not fit before station 0, are not judged: on a straight nothing is lacking.
#[test]
fn near_the_start_nothing_is_lacking() {
    let mut random = Random::new(172);
    for length in 1..=80 {
        let version = random.one_of(&VERSIONS);
        let road = Road { version, speed: 30, purpose: 1, length, start_height: 0, first_grade: 1_500, curves: vec![] };
        let marks = compare_accepted(&mut random, &bytes(&road));
        let [stopping, decision] = [0, 1].map(|purpose| required_distance(30, purpose, -1_500).expect("in range"));
        for (i, mark) in (0..).zip(marks) {
            let no_stopping = if i < stopping { STOPPING_NOT_JUDGED } else { 0 };
            let no_decision = if i < decision { DECISION_NOT_JUDGED } else { 0 };
            assert_eq!(mark, no_stopping | no_decision, "station {i} of {length}");
        }
    }
}

/// A run of three short crests at 90 km/h, driven from either end: a driver on the way back lacks sight too.
#[test]
fn hump_behind_a_short_crest() {
    let marks = compare_accepted(&mut Random::new(173), &bytes(&roads::three_short_crests()));
    assert!(marks.iter().any(|mark| mark & STOPPING_LACKING != 0));
    assert!(marks.iter().any(|mark| mark & DECISION_LACKING != 0));
}

/// A file is refused as reading refuses it, whatever the list is. A road over 8,000 m is taken.
#[test]
fn refused_files() {
    let mut random = Random::new(174);
    let mut tally = Tally::default();
    for round in 0..30_000 {
        let file = match round % 4 {
            0 => roads::careless_file(&mut random),
            _ => roads::doubtful_file(&mut random),
        };
        // A good one is left to the other tests.
        let Err(refusal) = read(&file) else { continue };
        let places = random.one_of(&[0, 1, 300, 9_000]);
        assert_eq!(compare_file(&mut random, &file, places).0, Err(refusal));
        tally.count(compare_grade(&file).map(i32::unsigned_abs));
    }
    for refusal in REFUSALS {
        assert!(tally.refused(refusal) > 300, "{} refused {refusal}", tally.refused(refusal));
    }
    for roads::LongFile { file, read, .. } in roads::long_files(&mut random) {
        assert_eq!(compare_grade(&file).err(), read, "{file:02X?}");
        let expected = read.map_or(14, |refusal| refusal);
        assert_eq!(compare_file(&mut random, &file, 8_001).0, Err(expected), "{file:02X?}");
    }
}
