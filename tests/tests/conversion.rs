//! docs/RULES.md, "Converting a file": a road file of either version made into one of the other.

use sight_tests::bare;
use sight_tests::heights;
use sight_tests::lent;
use sight_tests::random::Random;
use sight_tests::reference::conversion::convert;
use sight_tests::reference::file::{bytes, read};
use sight_tests::reference::road::{Curve, Road};
use sight_tests::reference::Answer;
use sight_tests::roads::{self, in_version};
use sight_tests::roads::{
    EXAMPLE, EXAMPLE_LISTING, EXAMPLE_VERSION_2, LONG_EXAMPLE, LONG_LENGTHS, REFUSALS, SHARP_BREAK, VERSIONS,
};
use sight_tests::tally::Tally;

fn curve(pvi: u32, length: u16, grade_out: i16) -> Curve {
    Curve { pvi, length, grade_out }
}

/// A level road of so many metres at 80 km/h.
fn level(version: u16, length: u32) -> Road {
    Road { version, speed: 80, purpose: 1, length, start_height: 0, first_grade: 0, curves: vec![] }
}

/// The program writes into `places` bytes just as the second calculation does, and the rest stays. So does the file.
fn compare(random: &mut Random, file: &[u8], places: usize) -> (Answer, Vec<u8>) {
    let read_file = file.to_vec();
    let compared = lent::compare(
        &random.list(places, |bits| bits as u8),
        |buffer| bare(exports::convert(&read_file, buffer)),
        |buffer| convert(file, buffer),
        format_args!("{file:02X?}"),
    );
    assert_eq!(read_file, file, "the file is what it was");
    compared
}

/// The file is refused by this number, whatever the buffer is.
fn expect_refused(random: &mut Random, file: &[u8], refusal: u32) {
    for places in [0, 1, file.len(), 300] {
        assert_eq!(compare(random, file, places).0, Err(refusal), "{places} places, {file:02X?}");
    }
}

/// Converts an accepted file that can be converted, into buffers that are one byte too short, empty, longer, and just long enough.
/// It is read as the same road but for its version, which is the other one, and converted back it is the first file.
fn converted(random: &mut Random, file: &[u8]) -> Vec<u8> {
    let road = read(file).expect("the road is accepted");
    let curves = road.curves.len();
    let (other, needed) = if road.version == 1 { (2, 18 + 8 * curves) } else { (1, 16 + 6 * curves) };
    for places in [needed - 1, 0] {
        assert_eq!(compare(random, file, places).0, Err(14), "{places} places, {file:02X?}");
    }
    let all = Ok(needed as u32);
    let more = random.of_any_size(50) as usize;
    assert_eq!(compare(random, file, needed + more).0, all);
    let (answer, there) = compare(random, file, needed);
    assert_eq!(answer, all);
    assert_eq!(read(&there), Ok(in_version(other, &road)), "{file:02X?}");
    assert_eq!(there, bytes(&in_version(other, &road)));
    assert_eq!(compare(random, &there, file.len()), (Ok(file.len() as u32), file.to_vec()), "there and back");
    there
}

/// Compares a file of any kind. Answers the number by which it is refused, or the length of the converted file.
fn compare_any(random: &mut Random, file: &[u8]) -> Answer {
    match read(file) {
        Err(refusal) => {
            expect_refused(random, file, refusal);
            Err(refusal)
        }
        Ok(road) if road.version == 2 && road.length > 8_000 => {
            expect_refused(random, file, 27);
            Err(27)
        }
        Ok(_) => Ok(converted(random, file).len() as u32),
    }
}

/// What the van shows of a file.
fn marks(file: &[u8]) -> Vec<u8> {
    let mut marks = vec![0; vcp::MOST_STATIONS];
    let stations = vcp::mark_road_file(file, &mut marks).expect("the road is accepted");
    marks.truncate(stations as usize);
    marks
}

/// The listing of a file.
fn listing(file: &[u8]) -> String {
    let mut text = vec![0; exports::GREATEST_LISTING];
    let length = exports::list_road_file(file, &mut text).expect("the buffer holds any listing");
    text.truncate(length as usize);
    String::from_utf8(text).expect("a listing is text")
}

/// The files of the rules: a crest of 20 m on a road of 100 m, and level roads of 8,000 m and a metre more.
#[test]
fn cases_of_the_rules() {
    let mut random = Random::new(131);
    let crest = [86, 67, 80, 1, 0, 90, 2, 100, 0, 24, 252, 255, 255, 44, 1, 1, 50, 0, 20, 0, 212, 254];
    let second = [86, 67, 80, 2, 0, 90, 2, 100, 0, 0, 0, 24, 252, 255, 255, 44, 1, 1, 50, 0, 0, 0, 20, 0, 212, 254];
    assert_eq!(converted(&mut random, &second), crest);
    assert_eq!(converted(&mut random, &crest), second);
    assert_eq!(converted(&mut random, &bytes(&level(2, 8_000))).len(), 16);
    let longer = bytes(&level(2, 8_001));
    expect_refused(&mut random, &longer, 27);
    expect_refused(&mut random, &longer[..17], 1);
    expect_refused(&mut random, &bytes(&Road { speed: 19, ..level(2, 8_001) }), 6);
}

/// The examples, whose bytes stand in the papers and were written down by hand.
#[test]
fn examples() {
    let mut random = Random::new(132);
    assert_eq!(converted(&mut random, &EXAMPLE), EXAMPLE_VERSION_2);
    assert_eq!(converted(&mut random, &EXAMPLE_VERSION_2), EXAMPLE);
    assert_eq!(listing(&EXAMPLE_VERSION_2), EXAMPLE_LISTING.replacen("VCP 1", "VCP 2", 1));
    expect_refused(&mut random, &LONG_EXAMPLE, 27);
    expect_refused(&mut random, &SHARP_BREAK, 25);
}

/// Runs of short crests close behind each other: the converted road has the same heights, the same marks and the same zones, so
/// that an older van shows what a newer one does.
#[test]
fn runs_of_short_crests() {
    let mut random = Random::new(133);
    let (mut curves, mut lacking, mut versions) = (0, 0, [0; 2]);
    for _ in 0..3_000 {
        let room = random.within(2..=300);
        let road = roads::run_of_crests(&mut random, room);
        let file = bytes(&road);
        let there = converted(&mut random, &file);
        assert_eq!(heights::of_file(&there), heights::of_file(&file), "{road:?}");
        let shown = marks(&file);
        assert_eq!(marks(&there), shown, "{road:?}");
        let version = |file: &[u8]| format!("VCP {} ", file[3]);
        assert_eq!(listing(&there), listing(&file).replacen(&version(&file), &version(&there), 1), "{road:?}");
        curves += road.curves.len();
        lacking += shown.iter().filter(|&&mark| mark & vcp::STOPPING_LACKING != 0).count();
        versions[usize::from(road.version) - 1] += 1;
    }
    assert!(curves > 30_000 && lacking > 3_000, "{curves} curves, {lacking} stations that lack sight");
    assert!(versions.iter().all(|&many| many > 1_000), "{versions:?}");
}

/// Roads of any kind, with any number of curves.
#[test]
fn roads_of_any_kind() {
    let mut random = Random::new(134);
    let mut counts = [0; 33];
    for _ in 0..6_000 {
        let road = roads::any_road(&mut random);
        for version in VERSIONS {
            converted(&mut random, &bytes(&in_version(version, &road)));
        }
        counts[road.curves.len()] += 1;
    }
    assert!(counts.iter().all(|&many| many > 0), "{counts:?}");
}

/// Every length that version 1 takes can be converted either way, and of version 2 no longer one can. Cut to two bytes some of these
/// would be short.
#[test]
fn lengths_at_each_edge() {
    let mut random = Random::new(135);
    for length in [1, 2, 255, 256, 257, 7_999, 8_000] {
        for version in VERSIONS {
            converted(&mut random, &bytes(&level(version, length)));
        }
    }
    for length in LONG_LENGTHS.into_iter().chain([32_768, 65_535, 65_536, 65_537, 65_536 + 8_000, 73_537, 99_999]) {
        expect_refused(&mut random, &bytes(&level(2, length)), 27);
    }
    for length in [0, 100_001, 131_072 + 300, 1 << 31, u32::MAX] {
        expect_refused(&mut random, &bytes(&level(2, length)), 8);
    }
    for length in [0, 8_001, 65_535] {
        expect_refused(&mut random, &bytes(&level(1, length)), 8);
    }
}

/// Numbers at the edges of what their bytes hold: all of them stay.
#[test]
fn numbers_at_each_edge() {
    let mut random = Random::new(136);
    for version in VERSIONS {
        for start_height in [-10_000_000, -1, 0, 255, 256, 65_536, 90_000_000] {
            converted(&mut random, &bytes(&Road { start_height, ..level(version, 300) }));
        }
        for first_grade in [-1_500, -256, -1, 0, 1, 255, 1_500] {
            converted(&mut random, &bytes(&Road { first_grade, ..level(version, 300) }));
        }
        for (speed, purpose) in [(20, 1), (130, 5)] {
            converted(&mut random, &bytes(&Road { speed, purpose, ..level(version, 300) }));
        }
        for last in [curve(7_000, 2_000, -1_500), curve(8_000, 0, 50), curve(7_999, 2, 1_500), curve(256, 256, -256)] {
            let curves = vec![curve(0, 0, 0), curve(1, 2, 0), last];
            converted(&mut random, &bytes(&Road { curves, ..level(version, 8_000) }));
        }
        for many in [0, 1, 31, 32] {
            let curves = vec![curve(100, 0, 0); many];
            converted(&mut random, &bytes(&Road { curves, ..level(version, 300) }));
        }
    }
}

/// Roads over 8,000 m: good ones are refused 27, and each fault of reading comes before that.
#[test]
fn long_roads() {
    let mut random = Random::new(137);
    for _ in 0..40 {
        for long in roads::long_files(&mut random) {
            expect_refused(&mut random, &long.file, long.read.unwrap_or(27));
        }
    }
    for _ in 0..2_000 {
        let road = roads::any_long_road(&mut random);
        expect_refused(&mut random, &bytes(&road), 27);
    }
}

/// A file with any fault of reading is refused by that, also where it is of a road that is too long and the buffer too short.
#[test]
fn refusals_of_reading_come_first() {
    let mut random = Random::new(138);
    for refusal in REFUSALS {
        for round in 0..150 {
            let faulty = if round % 3 == 0 { roads::faulty_long_file } else { roads::faulty_file };
            let file = faulty(&mut random, &[refusal]);
            expect_refused(&mut random, &file, refusal);
        }
    }
}

/// Files with several faults, files that say the other version, careless ones and noise.
#[test]
fn damaged_files() {
    let mut random = Random::new(139);
    let mut tally = Tally::default();
    for _ in 0..10_000 {
        let file = match random.within(0..=3) {
            0 => roads::careless_file(&mut random),
            _ => roads::doubtful_file(&mut random),
        };
        tally.count(compare_any(&mut random, &file));
    }
    for refusal in REFUSALS {
        assert!(tally.refused(refusal) > 100, "{} refused {refusal}", tally.refused(refusal));
    }
    assert!(tally.numbers() > 100 && tally.refused(27) > 3, "{}, {}", tally.numbers(), tally.refused(27));
}

/// Every beginning of a file, and files with bytes behind their end.
#[test]
fn truncated_and_lengthened() {
    let mut random = Random::new(140);
    for (file, least) in [(&EXAMPLE[..], 16), (&EXAMPLE_VERSION_2, 18), (&LONG_EXAMPLE, 18)] {
        for length in 0..file.len() {
            expect_refused(&mut random, &file[..length], if length < least { 1 } else { 5 });
        }
        for more in [1, 2, 6, 8, 200] {
            expect_refused(&mut random, &[file, &vec![0; more]].concat(), 5);
        }
    }
}
