//! The rules' example and one of 100 km, and random roads and road files of both versions, good and faulty. Where nothing else is
//! said a road has at most 8,000 m, so that every operation takes it.

use crate::random::Random;
use crate::reference::file::{bytes, Layout};
use crate::reference::road::{Curve, Road, GREATEST_LONG_ROAD, GREATEST_SHORT_ROAD};

/// The road file of the rules' example for the lister: a crest, a sag, a crest and a break.
pub const EXAMPLE: [u8; 40] = [
    0x56, 0x43, 0x50, 0x01, 0x00, 0x28, 0x01, 0x2C, 0x01, 0x00, 0x00, 0x00, 0x00, 0x58, 0x02, 0x04, 0x64, 0x00, 0x0A,
    0x00, 0xA8, 0xFD, 0x82, 0x00, 0x0A, 0x00, 0x58, 0x02, 0xA0, 0x00, 0x0A, 0x00, 0xA8, 0xFD, 0xC8, 0x00, 0x00, 0x00,
    0xDA, 0xFD,
];

/// Its listing.
pub const EXAMPLE_LISTING: &str = "\
VCP 1 40 50 60
S 58 87
S 123 148
D 48 87
D 115 149
R 48 57
R 115 122
R 149 149
s 251 300
d 241 300
";

/// The same road in version 2, by document 02's layout: N and each PVI have two bytes more, both 0. Its listing is the same but for
/// the version.
pub const EXAMPLE_VERSION_2: [u8; 50] = [
    0x56, 0x43, 0x50, 0x02, 0x00, 0x28, 0x01, 0x2C, 0x01, 0x00, 0x00, 0x00, 0x00, 0x00, 0x00, 0x58, 0x02, 0x04, 0x64,
    0x00, 0x00, 0x00, 0x0A, 0x00, 0xA8, 0xFD, 0x82, 0x00, 0x00, 0x00, 0x0A, 0x00, 0x58, 0x02, 0xA0, 0x00, 0x00, 0x00,
    0x0A, 0x00, 0xA8, 0xFD, 0xC8, 0x00, 0x00, 0x00, 0x00, 0x00, 0xDA, 0xFD,
];

/// The road file of a road of 100,000 m. From -1,000 h-units it rises by 0.1 %, behind a sag of 200 m at station 70,000 by 6 %, and
/// behind a crest of 18 m at station 99,900 it falls by 6 %.
pub const LONG_EXAMPLE: [u8; 34] = [
    0x56, 0x43, 0x50, 0x02, 0x00, 0x28, 0x01, 0xA0, 0x86, 0x01, 0x00, 0x18, 0xFC, 0xFF, 0xFF, 0x0A, 0x00, 0x02, 0x70,
    0x11, 0x01, 0x00, 0xC8, 0x00, 0x58, 0x02, 0x3C, 0x86, 0x01, 0x00, 0x12, 0x00, 0xA8, 0xFD,
];

/// The road file of document 01's example, a break of 30 %, which is refused 25.
pub const SHARP_BREAK: [u8; 22] = [
    0x56, 0x43, 0x50, 0x01, 0x00, 0x14, 0x01, 0x2C, 0x01, 0x00, 0x00, 0x00, 0x00, 0xDC, 0x05, 0x01, 0x64, 0x00, 0x00,
    0x00, 0x24, 0xFA,
];

/// Why, in the words of the command.
pub const SHARP_BREAK_REASON: &str =
    "the grades of a curve of length 0 differ by more than 50 hundredths of a percent (0.5 %)";

/// The refusals of reading a road file, in the order in which they are tested: those of the file, then those of its road.
pub const REFUSALS: [u32; 14] = [1, 2, 3, 4, 5, 6, 7, 8, 9, 10, 11, 12, 13, 25];
pub const OF_ROAD: &[u32] = REFUSALS.split_at(5).1;

/// Both versions.
pub const VERSIONS: [u16; 2] = [1, 2];

/// Lengths that version 2 takes, and that the lister, the preview and the van's marking refuse 8. Cut to 16 bits the third is 300.
pub const LONG_LENGTHS: [u32; 4] = [8_001, 8_002, 65_836, 100_000];

/// How curves are laid one behind the other: at most so many, with at most so many metres of straight before each and
/// of curve on either side of its PVI, on a road of at most `room` metres.
#[derive(Clone, Copy)]
struct Laying {
    room: u32,
    curves: u32,
    straight: u32,
    half: u32,
}

/// Any grade; a third of them as steep as can be.
fn any_grade(random: &mut Random) -> i16 {
    match random.within(0..=5) {
        0 => -1_500,
        1 => 1_500,
        _ => random.signed_within(-1_500..=1_500) as i16,
    }
}

/// A grade for a run of crests and sags: downhill behind a crest and uphill behind a sag, now and then any grade.
fn turning_grade(random: &mut Random, uphill: bool) -> i16 {
    let steepness = random.of_any_size(1_500) as i16;
    match random.within(0..=5) {
        0 => any_grade(random),
        _ if uphill => steepness,
        _ => -steepness,
    }
}

/// Any start height; a third of them at the edges.
fn any_start_height(random: &mut Random) -> i32 {
    match random.within(0..=5) {
        0 => -10_000_000,
        1 => 90_000_000,
        2 => random.signed_within(-1_000..=1_000),
        _ => random.signed_within(-10_000_000..=90_000_000),
    }
}

/// The grade out of a curve that is to lead to this grade: a plain break turns towards it by no more than 50.
fn grade_out(length: u16, grade_in: i16, wanted: i16) -> i16 {
    match length {
        0 => wanted.clamp(grade_in - 50, grade_in + 50),
        _ => wanted,
    }
}

/// Lays curves while they fit. Half of them touch the one before, or begin at station 0; half of the roads end where
/// their last curve does. Where curves have a length at all, one in six is a plain break.
fn lay(random: &mut Random, laying: Laying) -> Road {
    let first_grade = any_grade(random);
    let mut curves = Vec::new();
    let (mut end, mut grade) = (0, first_grade);
    let mut uphill = first_grade > 0;
    while curves.len() < laying.curves as usize {
        let straight = if random.once_in(2) { 0 } else { random.within(0..=laying.straight) };
        let half = if laying.half == 0 || random.once_in(6) { 0 } else { random.within(1..=laying.half) };
        let pvi = end + straight + half;
        if pvi + half > laying.room {
            break;
        }
        // Several breaks in a row turn the same way, so that they too make crests and sags.
        if half > 0 || random.once_in(8) {
            uphill = !uphill;
        }
        let length = 2 * half as u16;
        grade = grade_out(length, grade, turning_grade(random, uphill));
        curves.push(Curve { pvi, length, grade_out: grade });
        end = pvi + half;
    }
    let tail = if random.once_in(2) { 0 } else { random.within(0..=laying.straight.min(laying.room - end)) };
    let length = (end + tail).max(1);
    Road {
        version: if length > GREATEST_SHORT_ROAD { 2 } else { random.one_of(&VERSIONS) },
        speed: random.within(20..=130) as u8,
        purpose: random.within(1..=5) as u8,
        length,
        start_height: any_start_height(random),
        first_grade,
        curves,
    }
}

/// The same road in a version.
pub fn in_version(version: u16, road: &Road) -> Road {
    Road { version, ..road.clone() }
}

/// The same road behind a straight of so many metres, in version 2.
pub fn moved(road: Road, metres: u32) -> Road {
    let curves = road.curves.iter().map(|&curve| Curve { pvi: curve.pvi + metres, ..curve }).collect();
    Road { version: 2, length: road.length + metres, curves, ..road }
}

/// A run of short crests and sags close behind each other, often touching.
pub fn run_of_crests(random: &mut Random, room: u32) -> Road {
    let half = random.one_of(&[1, 2, 4, 8]);
    lay(random, Laying { room, curves: 32, straight: 6, half })
}

/// Plain breaks in grade, often two or more at one station.
pub fn breaks(random: &mut Random, room: u32) -> Road {
    let curves = random.within(1..=32);
    lay(random, Laying { room, curves, straight: 20, half: 0 })
}

/// All 32 curves.
pub fn full(random: &mut Random) -> Road {
    let half = random.one_of(&[0, 1, 3, 10, 50]);
    lay(random, Laying { room: GREATEST_SHORT_ROAD, curves: 32, straight: 20, half })
}

/// One curve from station 0 to the end.
pub fn one_curve(random: &mut Random, room: u32) -> Road {
    let half = random.of_any_size(room.min(2_000) / 2);
    let mut road = lay(random, Laying { room, curves: 0, straight: 0, half });
    road.length = 2 * half;
    road.curves.push(Curve { pvi: half, length: 2 * half as u16, grade_out: any_grade(random) });
    road
}

/// One crest where the grade falls by a drop, between straights of so many metres.
pub fn one_crest(first_grade: i16, drop: i16, length: u16, straight: u32) -> Road {
    let pvi = straight + u32::from(length) / 2;
    let curves = vec![Curve { pvi, length, grade_out: first_grade - drop }];
    Road { version: 1, speed: 90, purpose: 1, length: 2 * pvi, start_height: 0, first_grade, curves }
}

/// Few curves of any length, with long straights between.
pub fn sparse(random: &mut Random, room: u32) -> Road {
    let curves = random.within(0..=6);
    let half = random.of_any_size(1_000);
    let straight = random.of_any_size(room);
    lay(random, Laying { room, curves, straight, half })
}

/// A road of 8,000 m.
pub fn longest(random: &mut Random) -> Road {
    Road { length: GREATEST_SHORT_ROAD, ..sparse(random, GREATEST_SHORT_ROAD) }
}

/// A road of 100,000 m.
pub fn longest_of_all(random: &mut Random) -> Road {
    Road { version: 2, length: GREATEST_LONG_ROAD, ..sparse(random, GREATEST_LONG_ROAD) }
}

/// A run of short crests and sags far out, on a road of more than 8,000 m: over station 8,000, over station 65,536, or on the last
/// metres of a road of 100,000 m. Behind it there is some straight, so that its last crests are judged at a low speed.
pub fn far_run_of_crests(random: &mut Random, room: u32) -> Road {
    let mut run = run_of_crests(random, room);
    run.length += random.within(0..=60);
    let before = match random.within(0..=3) {
        0 => GREATEST_SHORT_ROAD - random.within(0..=run.length - 1),
        1 => GREATEST_LONG_ROAD - run.length,
        _ => 65_536 - random.within(0..=run.length),
    };
    moved(run, before)
}

/// A road of more than 8,000 m: most often a run of short crests far out, or few curves, or all 32.
pub fn any_long_road(random: &mut Random) -> Road {
    let room = random.one_of(&[5, 40, 150, 400]);
    let metres = random.within(GREATEST_SHORT_ROAD..=GREATEST_LONG_ROAD - GREATEST_SHORT_ROAD);
    match random.within(0..=9) {
        0..=5 => far_run_of_crests(random, room),
        6 => moved(sparse(random, GREATEST_SHORT_ROAD), metres),
        7 => moved(full(random), metres),
        8 => longest_of_all(random),
        _ => Road { version: 2, length: random.one_of(&LONG_LENGTHS), ..any_road(random) },
    }
}

/// The same road with grades so many times gentler: its heights change by little, and their rounding tells.
pub fn gentler(road: Road, times: i16) -> Road {
    let curves = road.curves.iter().map(|&curve| Curve { grade_out: curve.grade_out / times, ..curve }).collect();
    Road { first_grade: road.first_grade / times, curves, ..road }
}

/// The same road with each grade as far from the steepest as it was from the level, so that most are steep: its
/// crests are high enough to hide a car. A plain break turns by 50 at most all the same.
pub fn steeper(mut road: Road) -> Road {
    let steep = |grade: i16| if grade < 0 { -1_500 - grade } else { 1_500 - grade };
    road.first_grade = steep(road.first_grade);
    let mut grade = road.first_grade;
    for curve in &mut road.curves {
        grade = grade_out(curve.length, grade, steep(curve.grade_out));
        curve.grade_out = grade;
    }
    road
}

/// A road of any of the kinds above that have at most 8,000 m, most of them short.
pub fn any_road(random: &mut Random) -> Road {
    let room = random.one_of(&[1, 5, 40, 40, 150, 400, 2_000]);
    match random.within(0..=99) {
        0..=39 => run_of_crests(random, room.max(2)),
        40..=54 => breaks(random, room),
        55..=69 => one_curve(random, room.max(2)),
        70..=84 => sparse(random, room),
        85..=98 => full(random),
        _ => longest(random),
    }
}

/// The grade that leads into the curve at a place.
pub fn grade_in(road: &Road, place: usize) -> i16 {
    match place {
        0 => road.first_grade,
        _ => road.curves[place - 1].grade_out,
    }
}

/// Where the curve before a place ends, or the road begins.
pub fn end_before(road: &Road, place: usize) -> i64 {
    match place {
        0 => 0,
        _ => road.curves[place - 1].end(),
    }
}

/// The longest length for which the curve at a place of an accepted road has room: with it the curve touches a neighbour,
/// reaches an end of the road, or is as long as a curve can be.
pub fn longest_length(road: &Road, place: usize) -> u32 {
    let pvi = i64::from(road.curves[place].pvi);
    let begin_behind = road.curves.get(place + 1).map_or(i64::from(road.length), Curve::begin);
    2 * (pvi - end_before(road, place)).min(begin_behind - pvi).min(1_000) as u32
}

/// A grade out that differs from a grade in by more than a plain break may, as often by one unit as by more.
fn sharp_turn(random: &mut Random, grade_in: i16) -> i16 {
    // Up where there is room upwards alone, and half the times where there is room both ways.
    let up = grade_in < -1_449 || grade_in <= 1_449 && random.once_in(2);
    let room = if up { 1_500 - grade_in } else { 1_500 + grade_in };
    let turn = if random.once_in(2) { 51 } else { random.within(51..=room as u32) as i16 };
    if up {
        grade_in + turn
    } else {
        grade_in - turn
    }
}

/// A PVI with which a curve of so many metres on either side ends behind an accepted road. Cut to 16 bits some are on the road, and
/// with the half added in 32 bits some of the ends are.
fn behind(random: &mut Random, road: &Road, half: u32) -> u32 {
    let (just_behind, wrapping) = (road.length - half + 1, u32::MAX - half.saturating_sub(1));
    match road.version {
        1 => random.one_of(&[just_behind, 8_001, 65_535]),
        _ => random.one_of(&[just_behind, 100_001, 131_072 + half, 1 << 31, wrapping, u32::MAX]),
    }
}

/// Gives an accepted road one fault, which this number of [`OF_ROAD`] refuses. False if the road has no place for it.
pub fn spoil_road(random: &mut Random, road: &mut Road, refusal: u32) -> bool {
    let any_curve = |random: &mut Random, road: &Road| match road.curves.len() as u32 {
        0 => None,
        many => Some(random.within(0..=many - 1) as usize),
    };
    let beyond_grade = |random: &mut Random| random.one_of(&[-1_501, 1_501, -9_999, 9_999, i16::MIN, i16::MAX]);
    match refusal {
        6 => road.speed = random.one_of(&[0, 1, 19, 131, 132, 255]),
        7 => road.purpose = random.one_of(&[0, 6, 7, 128, 255]),
        8 if road.version == 1 => road.length = random.one_of(&[0, 8_001, 8_002, 40_000, 65_535]),
        8 => road.length = random.one_of(&[0, 100_001, 100_002, 131_072 + 300, 1 << 31, u32::MAX]),
        9 => road.start_height = random.one_of(&[-10_000_001, 90_000_001, i32::MIN, i32::MAX]),
        10 if random.once_in(2) => road.first_grade = beyond_grade(random),
        10..=13 | 25 => {
            let Some(place) = any_curve(random, road) else { return false };
            let curve = road.curves[place];
            let half = u32::from(curve.length) / 2;
            match refusal {
                10 => road.curves[place].grade_out = beyond_grade(random),
                11 => road.curves[place].length = random.one_of(&[1, curve.length | 1, 1_999, 2_001, 2_002, 65_535]),
                12 if half > 0 && random.once_in(2) => road.curves[place].pvi = random.one_of(&[0, half - 1]),
                12 => road.curves[place].pvi = behind(random, road, half),
                25 => {
                    let grade_out = sharp_turn(random, grade_in(road, place));
                    road.curves[place] = Curve { length: 0, grade_out, ..curve };
                }
                _ => {
                    let end_before = end_before(road, place) as u32;
                    if end_before == 0 {
                        return false;
                    }
                    let begin = random.one_of(&[0, end_before - 1]);
                    road.curves[place].pvi = begin + half;
                }
            }
        }
        _ => unreachable!("{refusal} is no refusal of a road"),
    }
    true
}

/// Gives a road file one fault that is not its road's, which this number refuses, one that is not in [`OF_ROAD`].
pub fn spoil_file(random: &mut Random, file: &mut Vec<u8>, refusal: u32) {
    let version = file.get(3..5).map_or(0, |bytes| u16::from_le_bytes([bytes[0], bytes[1]]));
    let header = Layout::of(version).map_or(16, Layout::header);
    match refusal {
        // In version 2 a file of 16 or 17 bytes is too short as well.
        1 if header > 16 && random.once_in(2) => file.truncate(random.within(16..=header as u32 - 1) as usize),
        1 => file.truncate(random.within(0..=15) as usize),
        2 => file[random.one_of(&[0, 1, 2])] ^= random.within(1..=255) as u8,
        3 => file[3..5].copy_from_slice(&no_version(random).to_le_bytes()),
        4 => file[header - 1] = random.one_of(&[33, 34, 64, 128, 255]),
        5 => match random.within(0..=2) {
            0 if file.len() > header => file.truncate(random.within(header as u32..=file.len() as u32 - 1) as usize),
            1 => file[header - 1] = (file[header - 1] + random.within(1..=32) as u8) % 33,
            _ => file.extend((0..random.of_any_size(200)).map(|_| random.bits() as u8)),
        },
        _ => unreachable!("{refusal} is no refusal of the file itself"),
    }
}

/// A number that is neither version; in some of them a byte is.
fn no_version(random: &mut Random) -> u16 {
    match random.within(0..=3) {
        0 => random.one_of(&[0, 3, 4, 255, 256, 512, 65_535]),
        1 => 256 * random.within(1..=255) as u16 + random.one_of(&VERSIONS),
        _ => random.within(3..=65_535) as u16,
    }
}

/// The file of a road, drawn as it is said, that was given these faults, each named by the number that refuses it.
pub fn spoilt_file(random: &mut Random, draw: impl Fn(&mut Random) -> Road, refusals: &[u32]) -> Vec<u8> {
    // The higher numbers first, so that a curve is spoilt on a road whose other numbers are still good.
    let mut refusals = refusals.to_vec();
    refusals.sort_unstable_by(|one, other| other.cmp(one));
    let (of_road, of_file): (Vec<u32>, Vec<u32>) = refusals.iter().partition(|&refusal| OF_ROAD.contains(refusal));
    loop {
        let mut road = draw(random);
        if of_road.iter().all(|&refusal| spoil_road(random, &mut road, refusal)) {
            let mut file = bytes(&road);
            of_file.iter().for_each(|&refusal| spoil_file(random, &mut file, refusal));
            return file;
        }
    }
}

/// The file of any road that was given these faults.
pub fn faulty_file(random: &mut Random, refusals: &[u32]) -> Vec<u8> {
    spoilt_file(random, any_road, refusals)
}

/// The file of a road of more than 8,000 m that was given these faults.
pub fn faulty_long_file(random: &mut Random, refusals: &[u32]) -> Vec<u8> {
    spoilt_file(random, any_long_road, refusals)
}

/// The file of a road of more than 8,000 m, the number by which the lister, the preview and the van's marking refuse it, and the
/// one by which reading does, if it does.
#[derive(Debug)]
pub struct LongFile {
    pub file: Vec<u8>,
    pub short: u32,
    pub read: Option<u32>,
}

/// Such files of each of [`LONG_LENGTHS`], good ones and with each fault: one that is tested before 8 decides everywhere, and one
/// that is tested behind it does in reading alone.
pub fn long_files(random: &mut Random) -> Vec<LongFile> {
    let mut files = Vec::new();
    for length in LONG_LENGTHS {
        let draw = |random: &mut Random| Road { version: 2, length, ..any_road(random) };
        files.push(LongFile { file: bytes(&draw(random)), short: 8, read: None });
        for refusal in REFUSALS.into_iter().filter(|&refusal| refusal != 8) {
            let file = spoilt_file(random, draw, &[refusal]);
            files.push(LongFile { file, short: refusal.min(8), read: Some(refusal) });
        }
    }
    files
}

/// The file of a road that says the other version, half of them as long as that one is with as many curves.
pub fn relabelled_file(random: &mut Random) -> Vec<u8> {
    let road = any_road(random);
    let other = 3 - road.version;
    let mut file = bytes(&road);
    file[3..5].copy_from_slice(&other.to_le_bytes());
    if random.once_in(2) {
        let layout = Layout::of(other).expect("there are two versions");
        file.resize(layout.total(road.curves.len()), 0);
    }
    file
}

/// The file of a road whose numbers were each drawn alone, from a little more than the accepted range.
pub fn careless_file(random: &mut Random) -> Vec<u8> {
    let version = random.one_of(&VERSIONS);
    let length = if version == 2 && random.once_in(8) { random.within(0..=110_000) } else { random.within(0..=8_100) };
    let mut curves = Vec::new();
    for _ in 0..random.within(0..=5) {
        let length_there = if random.once_in(20) { random.within(0..=2_010) } else { 2 * random.within(0..=100) };
        curves.push(Curve {
            pvi: random.within(0..=length + 100),
            length: length_there as u16,
            grade_out: random.signed_within(-1_520..=1_520) as i16,
        });
    }
    if random.once_in(2) {
        curves.sort_by_key(|curve| curve.pvi);
    }
    bytes(&Road {
        version,
        speed: random.within(18..=132) as u8,
        purpose: random.within(0..=10).min(6) as u8,
        length,
        start_height: random.signed_within(-11_000_000..=91_000_000),
        first_grade: random.signed_within(-1_520..=1_520) as i16,
        curves,
    })
}

/// Random bytes, more or fewer of them behind a good beginning.
pub fn noise(random: &mut Random) -> Vec<u8> {
    let road = any_road(random);
    let layout = Layout::of(road.version).expect("a road has version 1 or 2");
    let (good, header) = (bytes(&road), layout.header());
    // Up to the letters, the version, the purpose, N, the start height, the first grade and the number of curves.
    let kept = random.one_of(&[0, 3, 5, 7, header - 7, header - 3, header - 1, header]);
    let curves = random.within(0..=40) as usize;
    let mut file: Vec<u8> = (0..layout.total(curves)).map(|_| random.bits() as u8).collect();
    file[..kept].copy_from_slice(&good[..kept]);
    match random.within(0..=3) {
        0 => file.truncate(random.within(0..=file.len() as u32) as usize),
        1 => {}
        _ => file[header - 1] = curves as u8,
    }
    file
}

/// Some numbers of reading's refusals, now and then one twice.
pub fn any_refusals(random: &mut Random) -> Vec<u32> {
    (0..random.within(2..=5)).map(|_| random.one_of(&REFUSALS)).collect()
}

/// A file with one fault or with several, of a road of any length, or noise. Now and then it is good all the same.
pub fn doubtful_file(random: &mut Random) -> Vec<u8> {
    let faulty = if random.once_in(5) { faulty_long_file } else { faulty_file };
    match random.within(0..=8) {
        0..=2 => {
            let refusal = random.one_of(&REFUSALS);
            faulty(random, &[refusal])
        }
        3..=5 => {
            let refusals = any_refusals(random);
            faulty(random, &refusals)
        }
        6 => relabelled_file(random),
        _ => noise(random),
    }
}

/// A run of three short crests, each touching the one before, at 90 km/h: the third hides the road that the first two leave in
/// sight.
pub fn three_short_crests() -> Road {
    let crest = |pvi: u32, grade_out: i16| Curve { pvi, length: 2, grade_out };
    Road {
        version: 1,
        speed: 90,
        purpose: 1,
        length: 400,
        start_height: 0,
        first_grade: 1_500,
        curves: vec![crest(199, 850), crest(201, -180), crest(203, -260)],
    }
}
