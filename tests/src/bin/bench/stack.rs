//! How much of its thread's stack each operation takes. The stack is painted before the operation and looked at behind it: what is
//! no longer paint was written.

use std::error::Error;
use std::fs::File;
use std::hint::black_box;
use std::io::{self, Write};
use std::os::unix::fs::FileExt;
use std::process::{Command, Stdio};
use std::thread;

use exports::Direction::{Falling, Rising};
use exports::{Look, Manoeuvre, Refusal};
use sight_tests::lister;
use sight_tests::reference::file::bytes;
use sight_tests::reference::road::Road;

/// How many bytes of the stack are painted, and with what.
const PAINTED: usize = 1 << 20;
const PAINT: u8 = 0xA5;

/// How often a program has to answer with a stack that is said to be enough: where a stack begins changes by some KiB.
const RUNS: usize = 5;

/// The stack of a program, in KiB, that is enough for certain.
const ENOUGH: u32 = 8_192;

/// What is measured: an operation on the longest that it takes, and its name.
type Operation<'a> = Box<dyn FnMut() + Send + 'a>;
type Named<'a> = (&'static str, Operation<'a>);

/// Paints the stack below its caller. Answers where the painted bytes begin.
#[inline(never)]
fn paint() -> usize {
    let area = [PAINT; PAINTED];
    black_box(&area).as_ptr() as usize
}

/// How many bytes of the stack below this function an operation has written.
#[inline(never)]
fn depth(operation: &mut Operation) -> io::Result<usize> {
    let memory = File::open("/proc/self/mem")?;
    let mut found = vec![0; PAINTED];
    // The first call may look up functions of the C library, which is not to count.
    operation();
    let lowest = paint();
    operation();
    memory.read_exact_at(&mut found, lowest as u64)?;
    Ok(PAINTED - found.iter().take_while(|&&byte| byte == PAINT).count())
}

/// The same on a thread whose stack has room for all of the paint.
fn on_a_thread(operation: &mut Operation) -> io::Result<usize> {
    thread::scope(|scope| {
        let painted = thread::Builder::new().stack_size(4 * PAINTED).spawn_scoped(scope, || depth(operation))?;
        painted.join().expect("the operation ends")
    })
}

/// Whether the lister answers on a stack of so many KiB.
fn lists(file: &[u8], listing: &[u8], kib: u32) -> io::Result<bool> {
    let mut running = Command::new("sh")
        .args(["-c", r#"ulimit -s "$0" && exec "$1""#, &kib.to_string()])
        .arg(lister::program())
        .env_clear()
        .stdin(Stdio::piped())
        .stdout(Stdio::piped())
        .stderr(Stdio::null())
        .spawn()?;
    // A program that has not begun leaves its input unread.
    let _ = running.stdin.take().map(|mut input| input.write_all(file));
    Ok(running.wait_with_output()?.stdout == listing)
}

/// The least stack in KiB on which the lister answers for certain, with all that a program has on it.
fn of_the_lister(file: &[u8]) -> Result<u32, Box<dyn Error>> {
    let mut listing = vec![0; exports::GREATEST_LISTING];
    let length = exports::list_road_file(file, &mut listing)? as usize;
    listing.truncate(length);
    let (mut too_small, mut enough) = (0, ENOUGH);
    while enough - too_small > 1 {
        let kib = (too_small + enough) / 2;
        let mut answers = true;
        for _ in 0..RUNS {
            answers = answers && lists(file, &listing, kib)?;
        }
        *(if answers { &mut enough } else { &mut too_small }) = kib;
    }
    Ok(enough)
}

/// The operation answers: one that refuses might take less.
fn answered<T>(answer: Result<T, Refusal>) {
    black_box(answer).expect("the operation answers");
}

/// The operations on numbers alone.
fn on_numbers() -> Vec<Named<'static>> {
    let manoeuvre = Manoeuvre { t1: 45, a: 241, v: 1_300, m: 100, t2: 113, d3: 90 };
    vec![
        ("required distance", Box::new(|| answered(vcp::required_distance(130, 2, 0)))),
        ("crest length", Box::new(|| answered(vcp::crest_length(130, 600, 130, 10_800, 6_000)))),
        ("sag length", Box::new(|| answered(exports::sag_length(130, 600, 130)))),
        ("passing distance", Box::new(move || answered(exports::passing_distance(manoeuvre)))),
    ]
}

/// The operations on a list of heights or marks.
fn on_lists(heights: &[i32]) -> Vec<Named<'_>> {
    let look = Look { eye: exports::EYE_HEIGHT, object: exports::OBJECT_HEIGHT, farthest: 525 };
    // Farther the slow engine would take long.
    let near = Look { farthest: 60, ..look };
    let [mut sights, mut slow_sights] = [(); 2].map(|_| vec![0; heights.len()]);
    let mut ends = vec![0; exports::MOST_ENDS];
    let [mut marks, mut passing, every] = [(); 3].map(|_| vec![1; heights.len()]);
    vec![
        ("sight from one station", Box::new(move || answered(exports::sight(heights, Rising, 0, look)))),
        ("sight profile", Box::new(move || answered(exports::sight_profile(heights, Rising, look, &mut sights)))),
        ("slow sight from one station", Box::new(move || answered(exports::slow_sight(heights, Rising, 0, near)))),
        (
            "slow sight profile",
            Box::new(move || answered(exports::slow_sight_profile(heights, Rising, near, &mut slow_sights))),
        ),
        (
            "comparisons from one station",
            Box::new(move || answered(exports::sight_comparisons(heights, Rising, 0, look))),
        ),
        ("marks of heights", Box::new(move || answered(exports::marks(130, 5, -1_440, heights, Rising, &mut marks)))),
        ("passing marks", Box::new(move || answered(exports::passing_marks(heights, 525, &mut passing)))),
        ("zones", Box::new(move || answered(exports::zones(&every, 0, &mut ends)))),
    ]
}

/// The operations on a road file.
fn on_files<'a>(short: &'a [u8], long: &'a [u8]) -> Vec<Named<'a>> {
    let [mut written, mut converted, mut mirrored, mut changed] = [(); 4].map(|_| vec![0; exports::ENOUGH_BYTES]);
    let [mut van, mut before, mut after] = [(); 3].map(|_| vec![0; exports::SHORT_STATIONS]);
    let (mut heights, mut marks) = (vec![0; exports::LONG_STATIONS], vec![0; exports::LONG_STATIONS]);
    let mut back = marks.clone();
    let mut text = vec![0; exports::GREATEST_LISTING];
    vec![
        ("a file written again", Box::new(move || answered(exports::rewrite(long, &mut written)))),
        ("a file in the other version", Box::new(move || answered(exports::convert(short, &mut converted)))),
        ("the mirror of a file", Box::new(move || answered(exports::mirror(long, &mut mirrored)))),
        ("a file with another length", Box::new(move || answered(exports::change_length(long, 0, 80, &mut changed)))),
        ("the grade of a file", Box::new(|| answered(exports::file_grade(long, Rising)))),
        ("a distance for a file's road", Box::new(|| answered(exports::file_distance(long, Rising, 2)))),
        ("the stations of a short file", Box::new(|| answered(exports::short_stations(short)))),
        ("heights of a file", Box::new(move || answered(exports::file_heights(long, &mut heights)))),
        ("marking, by the van", Box::new(move || answered(vcp::mark_road_file(short, &mut van)))),
        ("marking, by the library", Box::new(move || answered(exports::mark_file(long, Rising, &mut marks)))),
        ("the same of the lane coming back", Box::new(move || answered(exports::mark_file(long, Falling, &mut back)))),
        ("preview", Box::new(move || answered(exports::preview(short, 0, 80, &mut before, &mut after)))),
        ("listing", Box::new(move || answered(exports::list_road_file(short, &mut text)))),
    ]
}

/// Prints the stack of each operation, on a road of 8,000 m or, where it is taken, on one of 100,000 m, and that of the lister.
pub fn table(short: &Road, long: &Road) -> Result<(), Box<dyn Error>> {
    let (short, long) = (bytes(short), bytes(long));
    let mut heights = vec![0; exports::LONG_STATIONS];
    exports::file_heights(&long, &mut heights)?;
    println!("{:32} {:>8}", "operation", "KiB");
    for (name, mut operation) in [on_numbers(), on_lists(&heights), on_files(&short, &long)].into_iter().flatten() {
        println!("{name:32} {:8.1}", on_a_thread(&mut operation)? as f64 / 1_024.0);
    }
    match lister::program().exists() {
        true => println!("{:32} {:6}", "the lister, as a program", of_the_lister(&short)?),
        false => println!("the lister is not built: `make test` builds it"),
    }
    Ok(())
}
