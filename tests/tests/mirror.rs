//! Document 02, P11, the mirror of a road: its file, and that the backward marks of one are the forward marks of the other in reverse
//! order.

use exports::Direction::{self, Falling, Rising};
use sight_tests::bare;
use sight_tests::heights;
use sight_tests::lent;
use sight_tests::random::Random;
use sight_tests::reference::file::{bytes, read};
use sight_tests::reference::mirror::mirror;
use sight_tests::reference::road::{stored_height, Curve, Road};
use sight_tests::reference::Answer;
use sight_tests::roads::{self, in_version};
use sight_tests::roads::{EXAMPLE, EXAMPLE_VERSION_2, LONG_EXAMPLE, REFUSALS, SHARP_BREAK, VERSIONS};
use sight_tests::tally::Tally;

/// The heights that a road may start at.
const LEAST_START: i32 = -10_000_000;
const GREATEST_START: i32 = 90_000_000;

/// The program writes into `places` bytes just as the second calculation does, and the rest stays. So does the file.
fn compare(random: &mut Random, file: &[u8], places: usize) -> (Answer, Vec<u8>) {
    let read_file = file.to_vec();
    let compared = lent::compare(
        &random.list(places, |bits| bits as u8),
        |buffer| bare(exports::mirror(&read_file, buffer)),
        |buffer| mirror(file, buffer),
        format_args!("{file:02X?}"),
    );
    assert_eq!(read_file, file, "the file is what it was");
    compared
}

/// The file is refused by this number, whatever the buffer is.
fn expect_refused(random: &mut Random, file: &[u8], refusal: u32) {
    for places in [0, 1, file.len(), 300] {
        assert_eq!(compare(random, file, places).0, Err(refusal), "{places} places, {file:02X?}");
    }
}

/// The mirror of an accepted file whose mirror is accepted, by buffers that are one byte too short, empty, longer, and just long enough.
fn mirror_of(random: &mut Random, file: &[u8]) -> Vec<u8> {
    let needed = file.len();
    for places in [needed - 1, 0] {
        assert_eq!(compare(random, file, places).0, Err(14), "{places} places, {file:02X?}");
    }
    let more = random.of_any_size(50) as usize;
    assert_eq!(compare(random, file, needed + more).0, Ok(needed as u32));
    let (answer, there) = compare(random, file, needed);
    assert_eq!(answer, Ok(needed as u32));
    there
}

/// The marks of an accepted file.
fn marks(file: &[u8], direction: Direction) -> Vec<u8> {
    let mut marks = vec![0; exports::LONG_STATIONS];
    let stations = exports::mark_file(file, direction, &mut marks).expect("the road is accepted");
    marks.truncate(stations as usize);
    marks
}

/// A list in reverse order.
fn turned<T: Clone>(list: &[T]) -> Vec<T> {
    list.iter().rev().cloned().collect()
}

/// Mirrored twice it is the same file; both have the same heights in reverse order, need the same distances in opposite directions, and
/// the backward marks of one are the forward marks of the other in reverse order, both ways. Answers the backward marks.
fn compare_with_mirror(random: &mut Random, file: &[u8]) -> Vec<u8> {
    let there = mirror_of(random, file);
    assert_eq!(mirror_of(random, &there), file, "mirrored twice");
    assert_eq!(heights::of_file(&there), turned(&heights::of_file(file)), "{file:02X?}");
    for (own, other) in [(Rising, Falling), (Falling, Rising)] {
        let grade = |file: &[u8], direction| exports::file_grade(file, direction).expect("the road is accepted");
        assert_eq!(grade(&there, own), -grade(file, other), "{file:02X?}");
        for purpose in 0..=5 {
            let distance = |file: &[u8], direction| exports::file_distance(file, direction, purpose);
            assert_eq!(distance(&there, own), distance(file, other), "{purpose}, {file:02X?}");
        }
    }
    let back = marks(file, Falling);
    assert_eq!(turned(&back), marks(&there, Rising), "{file:02X?}");
    assert_eq!(turned(&marks(&there, Falling)), marks(file, Rising), "{file:02X?}");
    back
}

/// The road with a start height such that it and its mirror are accepted, if there is one.
fn with_accepted_mirror(road: &Road) -> Option<Road> {
    let rise = stored_height(&Road { start_height: 0, ..road.clone() }, road.length);
    let starts = LEAST_START.max(LEAST_START - rise)..=GREATEST_START.min(GREATEST_START - rise);
    let start_height = road.start_height.clamp(*starts.start(), (*starts.end()).max(*starts.start()));
    starts.contains(&start_height).then(|| Road { start_height, ..road.clone() })
}

/// By hand: the rules' example, and the one of 100 km.
#[test]
fn examples() {
    let mut random = Random::new(180);
    let there = read(&mirror_of(&mut random, &EXAMPLE)).expect("the mirror is accepted");
    let curve = |pvi: u32, length: u16, grade_out: i16| Curve { pvi, length, grade_out };
    // Up 6 % for 100 m, down for 30, up for 30, down for 40, and down by 5.5 % for 100: 60,000 - 18,000 + 18,000 - 24,000 - 55,000.
    assert_eq!((there.start_height, there.first_grade, there.length), (-19_000, 550, 300));
    assert_eq!((there.version, there.speed, there.purpose), (1, 40, 1));
    let curves = [curve(100, 0, 600), curve(140, 10, -600), curve(170, 10, 600), curve(200, 10, -600)];
    assert_eq!(there.curves, curves);
    for file in [&EXAMPLE[..], &EXAMPLE_VERSION_2] {
        compare_with_mirror(&mut random, file);
    }
    // From -1,000 up by 0.1 % for 70 km and by 6 % for 29.9 km, and down for 100 m: 700,000 + 17,940,000 - 60,000 higher.
    let there = read(&mirror_of(&mut random, &LONG_EXAMPLE)).expect("the mirror is accepted");
    assert_eq!((there.start_height, there.first_grade, there.length), (18_579_000, 600, 100_000));
    assert_eq!(there.curves, [curve(100, 18, -600), curve(30_000, 200, -10)]);
    compare_with_mirror(&mut random, &LONG_EXAMPLE);
    expect_refused(&mut random, &SHARP_BREAK, 25);
}

/// Runs of short crests first of all, before or behind a straight, at speeds at which they are judged.
#[test]
fn runs_of_short_crests() {
    let mut random = Random::new(181);
    let (mut curves, mut lacking, mut versions) = (0, 0, [0; 2]);
    for round in 0..4_000 {
        let room = random.within(2..=150);
        let run = roads::steeper(roads::run_of_crests(&mut random, room));
        let straight = random.within(0..=60);
        let road = match round % 2 {
            0 => Road { length: run.length + straight, ..run },
            _ => in_version(random.one_of(&VERSIONS), &roads::moved(run, straight)),
        };
        let road = Road { speed: random.within(20..=40) as u8, ..road };
        let road = with_accepted_mirror(&road).expect("it is short");
        let back = compare_with_mirror(&mut random, &bytes(&road));
        curves += road.curves.len();
        lacking += back.iter().filter(|&&mark| mark & vcp::STOPPING_LACKING != 0).count();
        versions[usize::from(road.version) - 1] += 1;
    }
    assert!(curves > 30_000 && lacking > 3_000, "{curves} curves, {lacking} stations that lack sight");
    assert!(versions.iter().all(|&many| many > 1_000), "{versions:?}");
}

/// Roads of any kind, with any number of curves, and long ones; where the mirror is refused it is by 9.
#[test]
fn roads_of_any_kind() {
    let mut random = Random::new(182);
    let (mut counts, mut long, mut refused) = ([0; 33], 0, [0; 2]);
    for round in 0..3_000 {
        let road = if round % 50 == 0 { roads::any_long_road(&mut random) } else { roads::any_road(&mut random) };
        let end = stored_height(&road, road.length);
        match end {
            LEAST_START..=GREATEST_START => drop(compare_with_mirror(&mut random, &bytes(&road))),
            _ => {
                expect_refused(&mut random, &bytes(&road), 9);
                refused[usize::from(end > 0)] += 1;
            }
        }
        if let Some(road) = with_accepted_mirror(&road) {
            compare_with_mirror(&mut random, &bytes(&road));
            counts[road.curves.len()] += 1;
            long += usize::from(road.length > 8_000);
        }
    }
    assert!(counts.iter().all(|&many| many > 0), "{counts:?}");
    assert!(long > 20 && refused.iter().all(|&many| many > 100), "{long} long ones, {refused:?} refused 9");
}

/// A straight road that ends at this height.
fn ending_at(end: i32, length: u32, first_grade: i16) -> Road {
    let start_height = end - i32::from(first_grade) * length as i32;
    Road { version: 2, speed: 80, purpose: 1, length, start_height, first_grade, curves: vec![] }
}

/// A mirror starts at the road's end height: just in range it is written, and just beyond it is refused 9, whatever the buffer is.
#[test]
fn mirrors_that_start_too_low_or_too_high() {
    let mut random = Random::new(183);
    for length in [1, 300, 8_000, 8_001, 50_000] {
        for (end, outwards) in [(LEAST_START, -1), (GREATEST_START, 1)] {
            for steepness in [1, 700, 1_500] {
                let at = |end: i32| bytes(&ending_at(end, length, outwards as i16 * steepness));
                compare_with_mirror(&mut random, &at(end));
                expect_refused(&mut random, &at(end + outwards), 9);
            }
        }
    }
    // The highest and the lowest end of all.
    expect_refused(&mut random, &bytes(&ending_at(GREATEST_START + 150_000_000, 100_000, 1_500)), 9);
    expect_refused(&mut random, &bytes(&ending_at(LEAST_START - 150_000_000, 100_000, -1_500)), 9);
}

/// A file with any fault of reading is refused by that, also where its mirror would start too high and the buffer is too short.
#[test]
fn refusals_of_reading_come_first() {
    let mut random = Random::new(184);
    for refusal in REFUSALS {
        for round in 0..150 {
            let faulty = if round % 3 == 0 { roads::faulty_long_file } else { roads::faulty_file };
            let file = faulty(&mut random, &[refusal]);
            expect_refused(&mut random, &file, refusal);
        }
        let high = |_: &mut Random| Road { curves: vec![Curve { pvi: 100, length: 2, grade_out: 1_500 }], ..steep() };
        if refusal != 13 {
            let file = roads::spoilt_file(&mut random, high, &[refusal]);
            expect_refused(&mut random, &file, refusal);
        }
    }
}

/// A road whose mirror starts too high.
fn steep() -> Road {
    ending_at(GREATEST_START + 1, 300, 1_500)
}

/// Files with several faults, files that say the other version, careless ones and noise.
#[test]
fn damaged_files() {
    let mut random = Random::new(185);
    let mut tally = Tally::default();
    for _ in 0..10_000 {
        let file = match random.within(0..=3) {
            0 => roads::careless_file(&mut random),
            _ => roads::doubtful_file(&mut random),
        };
        let places = random.one_of(&[0, 20, 275, 300]);
        tally.count(compare(&mut random, &file, places).0);
    }
    for refusal in REFUSALS {
        assert!(tally.refused(refusal) > 100, "{} refused {refusal}", tally.refused(refusal));
    }
    assert!(tally.numbers() > 50 && tally.refused(14) > 20, "{}, {}", tally.numbers(), tally.refused(14));
}

/// Every beginning of a file, and files with bytes behind their end.
#[test]
fn truncated_and_lengthened() {
    let mut random = Random::new(186);
    for (file, least) in [(&EXAMPLE[..], 16), (&EXAMPLE_VERSION_2, 18)] {
        for length in 0..file.len() {
            expect_refused(&mut random, &file[..length], if length < least { 1 } else { 5 });
        }
        for more in [1, 2, 6, 8, 200] {
            expect_refused(&mut random, &[file, &vec![0; more]].concat(), 5);
        }
    }
}
