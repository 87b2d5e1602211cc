//! `make bench`: the proved functions beside the same calculations in safe Rust and beside the literal rule, on the same
//! inputs in one run, the library's marking of long roads beside that of shorter ones and of the lane coming back beside that
//! of a mirror, and the quick engine of sight beside the slow one. The two sides take turns round by round, so that the machine's
//! load falls on both alike. Times are those on the processor: what other programs took meanwhile does not count. Then the
//! command's listing of many roads beside their marking, by the clock on the wall, and last the stack that each operation takes.

use std::fmt::Debug;
use std::fs;
use std::hint::black_box;
use std::ops::RangeInclusive;
use std::path::PathBuf;
use std::process::{self, Command, Stdio};
use std::time::Instant;
use std::{env, error};

use exports::Direction::{Falling, Rising};
use sight_tests::bare;
use sight_tests::engines::{asked, ENGINES, QUICK, SLOW};
use sight_tests::heights;
use sight_tests::quick;
use sight_tests::random::Random;
use sight_tests::reference::crest::Crest;
use sight_tests::reference::distances::required_distance;
use sight_tests::reference::file::bytes;
use sight_tests::reference::marks::{EYE, OBJECT};
use sight_tests::reference::mirror::mirrored;
use sight_tests::reference::road::{marking_grade, Curve, Road};
use sight_tests::reference::sight::Look;
use sight_tests::reference::Answer;

mod stack;

const ROUNDS: usize = 15;

/// A side's turn in a round lasts at least so many microseconds: what is quick is repeated.
const TURN: f64 = 2_000.0;

/// The slowest that the van may be beside safe Rust, on roads.
const TIMES_RUST: f64 = 1.1;

/// The least that the van is faster than the literal rule, on roads of 8,000 m.
const TIMES_FASTER: f64 = 20.0;

/// The longest that the marking of 100,000 m may take beside that of their first 8,000 m. The last 525 stations of either are not
/// judged, so that 13.3 times as many are.
const TIMES_SHORT: f64 = 14.0;

/// The metres of the longest road that the van takes, and of the longest of all.
const SHORT: u32 = 8_000;
const LONG: u32 = 100_000;

/// How far the engines of sight look: the stopping distance on the level at the greatest speed.
const FARTHEST: u32 = 285;

/// How many roads are listed in one call, and in how many rounds.
const LISTED: usize = 1_000;
const LISTING_ROUNDS: usize = 5;

/// The longest that the listing of many roads may take beside their marking.
const TIMES_MARKING: f64 = 1.2;

/// The C library's clock of the time that this thread had on the processor, which Rust's own library does not offer.
const THREAD_CLOCK: i32 = 3;

#[repr(C)]
#[derive(Default)]
struct ClockTime {
    seconds: i64,
    nanoseconds: i64,
}

extern "C" {
    fn clock_gettime(clock: i32, time: *mut ClockTime) -> i32;
}

/// The microseconds that this thread had on the processor so far.
fn processor_time() -> f64 {
    let mut time = ClockTime::default();
    // SAFETY: it writes the two numbers of a timespec, which are these on 64-bit Linux.
    assert_eq!(unsafe { clock_gettime(THREAD_CLOCK, &mut time) }, 0, "the clock can be read");
    time.seconds as f64 * 1e6 + time.nanoseconds as f64 / 1e3
}

/// One side: it does its work once.
type Side<'a> = &'a mut dyn FnMut();

/// The medians of both sides in microseconds, and the median of the rounds' ratios, our time to the other's.
struct Times {
    ours: f64,
    other: f64,
    ratio: f64,
}

fn median(mut numbers: Vec<f64>) -> f64 {
    numbers.sort_unstable_by(f64::total_cmp);
    numbers[numbers.len() / 2]
}

/// The microseconds of one repetition.
fn measure(side: Side, repetitions: u32) -> f64 {
    let start = processor_time();
    for _ in 0..repetitions {
        side();
    }
    (processor_time() - start) / f64::from(repetitions)
}

/// How often a side is repeated in its turn.
fn repetitions(side: Side) -> u32 {
    let mut many = 1;
    while measure(&mut *side, many) * f64::from(many) < TURN {
        many *= 2;
    }
    many
}

/// Both sides in turn, the one that begins changing with each round.
fn side_by_side(ours: Side, other: Side) -> Times {
    let (our_many, other_many) = (repetitions(&mut *ours), repetitions(&mut *other));
    let (mut our_times, mut other_times) = (Vec::new(), Vec::new());
    for round in 0..ROUNDS {
        if round % 2 == 0 {
            our_times.push(measure(&mut *ours, our_many));
            other_times.push(measure(&mut *other, other_many));
        } else {
            other_times.push(measure(&mut *other, other_many));
            our_times.push(measure(&mut *ours, our_many));
        }
    }
    let ratios = our_times.iter().zip(&other_times).map(|(ours, other)| ours / other).collect();
    Times { ours: median(our_times), other: median(other_times), ratio: median(ratios) }
}

/// A calculation that marks a road file.
type Marking = fn(&[u8], &mut [u8]) -> Answer;

/// The van's marking.
fn by_the_van(file: &[u8], marks: &mut [u8]) -> Answer {
    bare(vcp::mark_road_file(file, marks))
}

/// The library's, which takes roads of any length.
fn by_the_library(file: &[u8], marks: &mut [u8]) -> Answer {
    bare(exports::mark_file(file, Rising, marks))
}

/// The same of the lane coming back.
fn by_the_library_back(file: &[u8], marks: &mut [u8]) -> Answer {
    bare(exports::mark_file(file, Falling, marks))
}

/// The file of a road and its marks.
fn marked(road: &Road, marking: Marking) -> (Vec<u8>, Vec<u8>) {
    let (file, stations) = (bytes(road), road.length as usize + 1);
    let mut marks = vec![0xFF; stations];
    assert_eq!(marking(&file, &mut marks), Ok(stations as u32), "{road:?}");
    (file, marks)
}

/// A marking of a road beside a marking of the same road or of another.
fn roads_beside((road, marking): (&Road, Marking), (other_road, other_marking): (&Road, Marking)) -> Times {
    let ((file, mut marks), (other_file, mut other_marks)) = (marked(road, marking), marked(other_road, other_marking));
    assert!(road != other_road || marks == other_marks, "{road:?}");
    side_by_side(
        &mut || {
            let _ = black_box(marking(black_box(&file), black_box(&mut marks)));
        },
        &mut || {
            let _ = black_box(other_marking(black_box(&other_file), black_box(&mut other_marks)));
        },
    )
}

/// A marking of a road beside another of it, which gives the same bytes.
fn markings(road: &Road, ours: Marking, other: Marking) -> Times {
    roads_beside((road, ours), (road, other))
}

/// The van's answers beside the Rust ones, which are the same: the times of one answer.
fn answers<T: Copy + Debug>(
    inputs: &[T],
    van: impl Fn(T) -> Result<u32, vcp::Refusal>,
    other: impl Fn(T) -> Answer,
) -> Times {
    for &input in inputs {
        assert_eq!(bare(van(input)), other(input), "{input:?}");
    }
    let times = side_by_side(
        &mut || {
            for &input in inputs {
                let _ = black_box(van(black_box(input)));
            }
        },
        &mut || {
            for &input in inputs {
                let _ = black_box(other(black_box(input)));
            }
        },
    );
    let many = inputs.len() as f64;
    Times { ours: times.ours / many, other: times.other / many, ratio: times.ratio }
}

/// Crest lengths for any numbers in their ranges.
fn crest_lengths() -> Times {
    let mut random = Random::new(1);
    let crest = |_| Crest {
        speed: random.within(20..=130),
        drop: random.within(1..=3_000),
        sight: random.of_any_size(800),
        eye: random.within(1..=50_000),
        object: random.within(1..=50_000),
    };
    let crests: Vec<Crest> = (0..1_000).map(crest).collect();
    let van = |crest: Crest| vcp::crest_length(crest.speed, crest.drop, crest.sight, crest.eye, crest.object);
    answers(&crests, van, quick::crest_length)
}

/// Distances on the level, which the van reads off a sheet, for any speed and purpose.
fn level_distances() -> Times {
    let mut random = Random::new(3);
    let asked: Vec<[u32; 2]> = (0..1_000).map(|_| [random.within(20..=130), random.within(0..=5)]).collect();
    let van = |[speed, purpose]: [u32; 2]| vcp::required_distance(speed, purpose, 0);
    answers(&asked, van, |[speed, purpose]| quick::required_distance(speed, purpose, 0))
}

/// A level road whose decision distance is that of purpose E. Over 8,000 m it is of version 2.
fn level(length: u32, speed: u8) -> Road {
    let version = if length > SHORT { 2 } else { 1 };
    Road { version, speed, purpose: 5, length, start_height: 0, first_grade: 0, curves: vec![] }
}

/// A road with 32 short curves at equal distances, every 250 m on 8,000 m, from this grade to those that follow it.
fn curved(length: u32, first_grade: i16, grade_out: impl Fn(i16) -> i16) -> Road {
    let pvi = |place: i16| (2 * place as u32 + 1) * length / 64;
    let curve = |place: i16| Curve { pvi: pvi(place), length: 120, grade_out: grade_out(place) };
    Road { first_grade, curves: (0..32).map(curve).collect(), ..level(length, 130) }
}

/// A road with 32 short crests.
fn crests(length: u32) -> Road {
    curved(length, 1_440, |place| 1_440 - 90 * (place + 1))
}

/// A road with 16 short crests and 16 short sags.
fn waves(length: u32) -> Road {
    curved(length, 400, |place| if place % 2 == 0 { -400 } else { 400 })
}

/// A road of 300 m with one crest.
fn one_crest() -> Road {
    let crest = Curve { pvi: 150, length: 60, grade_out: -400 };
    Road { purpose: 1, first_grade: 400, curves: vec![crest], ..level(300, 60) }
}

/// The van's roads with their names, the long ones first.
fn roads() -> Vec<(&'static str, Road)> {
    vec![
        ("8,000 m level", level(SHORT, 130)),
        ("8,000 m, 32 crests", crests(SHORT)),
        ("8,000 m, 16 crests and 16 sags", waves(SHORT)),
        ("300 m, one crest", one_crest()),
    ]
}

fn heading(what: &str, ours: &str) {
    println!("{:32} {:18} {ours:>12} {:>14} {:>9} {:>9}", "", "", "the other", "ratio of", "median");
    println!("{what:32} {:18} {:>12} {:>14} {:>9} {:>9}  target", "beside", "us", "us", "medians", "ratio");
}

fn row(name: &str, other: &str, times: &Times, ratio: [f64; 2], target: &str) {
    let Times { ours, other: time, .. } = times;
    let [of_medians, of_rounds] = ratio;
    println!("{name:32} {other:18} {ours:12.3} {time:14.3} {of_medians:9.2} {of_rounds:9.2}  {target}");
}

fn verdict(met: bool) -> &'static str {
    if met {
        "met"
    } else {
        "missed"
    }
}

/// Ratios to safe Rust are the van's time to Rust's; those to the literal rule say how much faster the van is.
fn comparisons() {
    heading("marking", "van");
    for (name, road) in roads() {
        let times = markings(&road, by_the_van, quick::mark_road_file);
        let target = format!("at most {TIMES_RUST}: {}", verdict(times.ratio <= TIMES_RUST));
        row(name, "safe Rust", &times, [times.ours / times.other, times.ratio], &target);
    }
    for (name, road) in roads() {
        let times = markings(&road, by_the_van, quick::mark_road_file_literally);
        let faster = 1.0 / times.ratio;
        let target = format!("at least {TIMES_FASTER}: {}", verdict(faster >= TIMES_FASTER));
        let target = if road.length == SHORT { &target } else { "" };
        row(name, "literal rule", &times, [times.other / times.ours, faster], target);
    }
    for (name, times) in [("crest length", crest_lengths()), ("level distance", level_distances())] {
        row(name, "safe Rust", &times, [times.ours / times.other, times.ratio], "");
    }
}

/// The first metres of a road.
fn first(length: u32, road: &Road) -> Road {
    let curves = road.curves.iter().filter(|curve| curve.end() <= length.into());
    Road { length, curves: curves.copied().collect(), ..road.clone() }
}

/// The library's marking: of roads of 100,000 m beside their first 8,000 m, of a short road beside the van's marking, whose list of
/// heights is shorter, and of the lane coming back beside the mirror's marking, which gives the same bytes in reverse order.
fn long_markings() {
    heading("marking", "library");
    for (name, road) in [("100,000 m level", level(LONG, 130)), ("100,000 m, 32 crests", crests(LONG))] {
        let times = roads_beside((&road, by_the_library), (&first(SHORT, &road), by_the_library));
        let target = format!("at most {TIMES_SHORT}: {}", verdict(times.ratio <= TIMES_SHORT));
        row(name, "its first 8,000 m", &times, [times.ours / times.other, times.ratio], &target);
        let times = markings(&road, by_the_library, quick::mark_file);
        row(name, "safe Rust", &times, [times.ours / times.other, times.ratio], "");
    }
    let times = markings(&one_crest(), by_the_library, by_the_van);
    row("300 m, one crest", "van", &times, [times.ours / times.other, times.ratio], "");
    let road = waves(LONG);
    let times = roads_beside((&road, by_the_library_back), (&mirrored(&road), by_the_library));
    row("100,000 m, the lane coming back", "its mirror", &times, [times.ours / times.other, times.ratio], "");
}

/// How the engines of sight look.
fn engines_look() -> Look {
    Look { eye: EYE, object: OBJECT, farthest: FARTHEST }
}

/// The sight profile of a road by the quick engine beside the slow one, which gives the same.
fn profiles(road: &Road) -> Times {
    let (heights, look) = (heights::of_road(road), engines_look());
    let [mut sights, mut slow_sights] = ENGINES.map(|engine| {
        let mut sights = vec![0; heights.len()];
        assert_eq!(engine.profile(&heights, Rising, look, &mut sights), Ok(road.length + 1), "{road:?}");
        sights
    });
    assert!(sights == slow_sights, "{road:?}");
    side_by_side(
        &mut || {
            let _ = black_box(QUICK.profile(black_box(&heights), Rising, look, black_box(&mut sights)));
        },
        &mut || {
            let _ = black_box(SLOW.profile(black_box(&heights), Rising, look, black_box(&mut slow_sights)));
        },
    )
}

/// The sight lines that the quick engine compares for each object station that it tries, over all stations of a road.
fn compared_for_each(road: &Road) -> f64 {
    let (heights, look) = (heights::of_road(road), engines_look());
    let (mut compared, mut tried) = (0, 0);
    for station in 0..=road.length {
        let sight = QUICK.sight(&heights, Rising, station, look).expect("the station is on the road");
        compared +=
            exports::sight_comparisons(&heights, Rising, station, asked(look)).expect("the station is on the road");
        tried += (sight + 1).min(look.farthest).min(road.length - station);
    }
    f64::from(compared) / f64::from(tried)
}

/// The ratios say how much faster the quick engine is; beside them is what it compares.
fn engines() {
    heading("sight profile", "quick");
    for (name, road) in roads() {
        let (times, compared) = (profiles(&road), compared_for_each(&road));
        let target = format!("at most 2 comparisons for each object station: {compared:.2}");
        row(name, "slow engine", &times, [times.other / times.ours, 1.0 / times.ratio], &target);
    }
}

/// How the marking of a level road grows, on both sides in microseconds.
fn growth(roads: impl Iterator<Item = Road>) {
    println!("{:>8} {:>6} {:>12} {:>12} {:>12}", "road m", "km/h", "required m", "van us", "safe Rust us");
    for road in roads {
        let required = required_distance(road.speed.into(), road.purpose.into(), marking_grade(&road));
        let required = required.expect("the speed is accepted");
        let Times { ours, other, .. } = markings(&road, by_the_van, quick::mark_road_file);
        println!("{:8} {:6} {required:12} {ours:12.1} {other:12.1}", road.length, road.speed);
    }
}

/// Files of roads in a folder of their own, which is removed at the end.
struct Files {
    folder: PathBuf,
    paths: Vec<PathBuf>,
    bytes: Vec<Vec<u8>>,
}

impl Files {
    fn write(roads: impl Iterator<Item = Road>) -> Result<Files, Box<dyn error::Error>> {
        let folder = env::temp_dir().join(format!("vcp-bench-{}", process::id()));
        fs::create_dir(&folder)?;
        let mut files = Files { folder, paths: vec![], bytes: roads.take(LISTED).map(|road| bytes(&road)).collect() };
        for (number, file) in files.bytes.iter().enumerate() {
            files.paths.push(files.folder.join(format!("{number}.vcp")));
            fs::write(&files.paths[number], file)?;
        }
        Ok(files)
    }

    /// The command as `make install` ships it, on all files in one call.
    fn command(&self) -> Result<Command, Box<dyn error::Error>> {
        let own = env::current_exe()?;
        let builds = own.ancestors().nth(2).ok_or("the bench stands in a folder of its profile")?;
        let mut command = Command::new(builds.join("release/vcp"));
        command.arg("list").args(&self.paths).stdin(Stdio::null());
        Ok(command)
    }

    /// It prints the listing of each file.
    fn check(&self) -> Result<(), Box<dyn error::Error>> {
        let printed = self.command()?.output()?;
        let mut text = vec![0; exports::GREATEST_LISTING];
        let mut listings = Vec::new();
        for file in &self.bytes {
            let length = exports::list_road_file(file, &mut text)? as usize;
            listings.extend_from_slice(&text[..length]);
        }
        assert!(printed.status.success() && printed.stdout == listings, "the roads are listed");
        Ok(())
    }

    /// The seconds of one call of `vcp list`.
    fn listing(&self) -> Result<f64, Box<dyn error::Error>> {
        let mut command = self.command()?;
        let start = Instant::now();
        assert!(command.stdout(Stdio::null()).status()?.success(), "the roads are listed");
        Ok(start.elapsed().as_secs_f64())
    }

    /// The seconds of their marking.
    fn marking(&self) -> f64 {
        let mut marks = [0; vcp::MOST_STATIONS];
        let start = Instant::now();
        for file in &self.bytes {
            let answer = black_box(vcp::mark_road_file(black_box(file), black_box(&mut marks)));
            assert!(answer.is_ok(), "the road is accepted");
        }
        start.elapsed().as_secs_f64()
    }
}

impl Drop for Files {
    fn drop(&mut self) {
        let _ = fs::remove_dir_all(&self.folder);
    }
}

/// Roads of 8,000 m of all kinds, each with a speed and a purpose out of these.
fn listed_roads(speeds: RangeInclusive<u32>, purposes: RangeInclusive<u32>) -> impl Iterator<Item = Road> {
    let kinds: Vec<Road> = roads().into_iter().map(|(_, road)| road).filter(|road| road.length == SHORT).collect();
    let mut random = Random::new(2);
    kinds.into_iter().cycle().map(move |road| Road {
        speed: random.within(speeds.clone()) as u8,
        purpose: random.within(purposes.clone()) as u8,
        ..road
    })
}

/// The listing of a thousand roads of 8,000 m in one call, beside their marking. Both take seconds, and other programs and
/// the machine's own changes of speed fall on either: so the best of each side is taken. The last row shows the roads whose
/// marking takes least, where the zones of five bits weigh most; no target is named for these alone.
fn listings() -> Result<(), Box<dyn error::Error>> {
    println!("{:32} {:>12} {:>14} {:>9}  target", "roads", "vcp list s", "marking s", "ratio");
    for (name, speeds, purposes, most) in [
        ("any speed and purpose", 20..=130, 1..=5, Some(TIMES_MARKING)),
        ("130 km/h, decision E", 130..=130, 5..=5, Some(TIMES_MARKING)),
        ("20 km/h, decision A", 20..=20, 1..=1, None),
    ] {
        let files = Files::write(listed_roads(speeds, purposes))?;
        files.check()?;
        let (mut listing, mut marking) = (f64::MAX, f64::MAX);
        for _ in 0..LISTING_ROUNDS {
            listing = listing.min(files.listing()?);
            marking = marking.min(files.marking());
        }
        let ratio = listing / marking;
        let target = most.map(|most| format!("at most {most}: {}", verdict(ratio <= most))).unwrap_or_default();
        println!("{name:32} {listing:12.3} {marking:14.3} {ratio:9.2}  {target}");
    }
    Ok(())
}

fn main() -> Result<(), Box<dyn error::Error>> {
    let load = fs::read_to_string("/proc/loadavg").unwrap_or_default();
    let load = load.split(' ').next().unwrap_or_default();
    println!("Medians of {ROUNDS} rounds; both sides built for release; load of the machine {load}\n");
    comparisons();
    println!("\nThe library's marking, of roads that the van does not take and of one that it does");
    long_markings();
    println!("\nThe two engines of sight, up to {FARTHEST} m");
    engines();
    println!("\nMarking a level road, by its length");
    growth([1_000, 2_000, 4_000, 8_000].into_iter().map(|length| level(length, 130)));
    println!("\nMarking a level road, by the required distance");
    growth([20, 60, 90, 130].into_iter().map(|speed| level(SHORT, speed)));
    println!(
        "\nListing {LISTED} roads of 8,000 m in one call, beside their marking: the best of {LISTING_ROUNDS} rounds"
    );
    listings()?;
    println!("\nThe stack that an operation takes");
    stack::table(&crests(SHORT), &crests(LONG))
}
