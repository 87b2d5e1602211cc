//! `vcp list`: byte for byte the proved lister's listing, which the second calculation gives too.

mod common;

use std::fs;

use common::{folder, run, run_with, Ended, LONG_ROAD, SHORT_FILE, WRONG_TOTAL};
use sight_tests::lister;
use sight_tests::random::Random;
use sight_tests::reference::file::{bytes, read_short};
use sight_tests::reference::listing::listing;
use sight_tests::reference::road::Road;
use sight_tests::roads::{self, EXAMPLE, EXAMPLE_LISTING, REFUSALS, SHARP_BREAK, SHARP_BREAK_REASON};
use sight_tests::tally::Tally;

/// Any road file of either version, good or faulty, runs of short crests first of all; some are of roads over 8,000 m.
fn any_file(random: &mut Random, round: u32) -> Vec<u8> {
    match round % 9 {
        0..=2 => {
            let mut road = roads::run_of_crests(random, 100);
            road.length += random.within(0..=100);
            road.speed = random.one_of(&[20, 25, 30, 40]);
            bytes(&road)
        }
        3..=5 => {
            let room = random.one_of(&[1, 5, 40, 150]);
            bytes(&roads::sparse(random, room))
        }
        // Many of these are long, and the second calculation is slow.
        6 if random.once_in(10) => roads::careless_file(random),
        7 if random.once_in(2) => bytes(&roads::any_long_road(random)),
        number => {
            let refusal = random.one_of(&REFUSALS);
            let faulty = if number == 7 { roads::faulty_long_file } else { roads::faulty_file };
            faulty(random, &[refusal])
        }
    }
}

/// What the command should say of files by these names.
fn expected(files: &[(String, Vec<u8>)]) -> Ended {
    let mut expected = Ended { output: String::new(), errors: String::new(), status: 0 };
    for (name, file) in files {
        expected.output += &listing(file);
        if let Err(refusal) = read_short(file) {
            expected.errors += &format!("{name}: refused {refusal}: ");
            expected.status = 1;
        }
    }
    expected
}

/// The errors without the reasons behind the numbers.
fn without_reasons(errors: &str) -> String {
    let lines =
        errors.lines().map(|line| line.splitn(3, ": ").take(2).map(|part| format!("{part}: ")).collect::<String>());
    lines.collect()
}

/// Many files in one call, good and refused ones: each has its listing, and each refused one its line.
#[test]
fn many_files() {
    let folder = folder("list_many");
    let mut random = Random::new(81);
    let mut tally = Tally::default();
    for batch in 0..20 {
        let files: Vec<(String, Vec<u8>)> =
            (0..100).map(|round| (format!("{batch}-{round}.vcp"), any_file(&mut random, round))).collect();
        for (name, file) in &files {
            fs::write(folder.join(name), file).expect("a file is written");
            tally.count(read_short(file).map(|road| road.length));
        }
        let arguments: Vec<&str> = ["list"].into_iter().chain(files.iter().map(|(name, _)| name.as_str())).collect();
        let ended = run(&folder, &arguments);
        let ended = Ended { errors: without_reasons(&ended.errors), ..ended };
        assert_eq!(ended, expected(&files));
    }
    assert!(tally.numbers() > 1_000, "{} accepted", tally.numbers());
    for refusal in REFUSALS {
        assert!(tally.refused(refusal) > 5, "{} refused {refusal}", tally.refused(refusal));
    }
}

/// What it prints is what the proved lister prints, of a refused file too.
#[test]
fn same_as_the_lister() {
    let folder = folder("list_lister");
    let mut random = Random::new(82);
    for round in 0..400 {
        let file = any_file(&mut random, round);
        assert_eq!(run_with(&folder, &["list", "-"], &file).0.output, lister::output(&file), "{file:02X?}");
    }
}

/// The rules' example, from a file and from standard input.
#[test]
fn example_of_the_rules() {
    let folder = folder("list_example");
    fs::write(folder.join("a.vcp"), EXAMPLE).expect("a file is written");
    common::expect(&folder, &["list", "a.vcp"], EXAMPLE_LISTING);
    common::expect(&folder, &["list", "--", "a.vcp"], EXAMPLE_LISTING);
    common::expect(&folder, &["list", "a.vcp", "a.vcp"], &EXAMPLE_LISTING.repeat(2));
    let ended = run_with(&folder, &["list", "-"], &EXAMPLE).0;
    assert_eq!(ended, Ended { output: EXAMPLE_LISTING.to_string(), errors: String::new(), status: 0 });
}

/// A road of either version up to 8,000 m has its listing, which begins with its version; one metre more is refused 8.
#[test]
fn roads_of_each_length_and_version() {
    let folder = folder("list_long");
    let level = |version: u16, length: u32| Road {
        version,
        speed: 20,
        purpose: 1,
        length,
        start_height: 0,
        first_grade: 0,
        curves: vec![],
    };
    for (version, length) in [(1, 1), (2, 1), (1, 8_000), (2, 8_000)] {
        let file = bytes(&level(version, length));
        let ended = run_with(&folder, &["list", "-"], &file).0;
        assert!(ended.output.starts_with(&format!("VCP {version} 20 20 25\n")), "{ended:?}");
        assert_eq!(ended, Ended { output: listing(&file), errors: String::new(), status: 0 });
    }
    for (version, length) in [(1, 8_001), (2, 8_001), (2, 65_536 + 300), (2, 100_000), (2, 100_001)] {
        let ended = run_with(&folder, &["list", "-"], &bytes(&level(version, length))).0;
        let errors = format!("-: refused 8: {LONG_ROAD}\n");
        assert_eq!(ended, Ended { output: "refused 8\n".to_string(), errors, status: 1 }, "{version}, {length}");
    }
}

/// After a refused file, and one that is not there, it goes on; the status is that of the worst.
#[test]
fn goes_on_after_a_refused_file() {
    let folder = folder("list_goes_on");
    fs::write(folder.join("a.vcp"), EXAMPLE).expect("a file is written");
    fs::write(folder.join("b.vcp"), &EXAMPLE[..39]).expect("a file is written");
    fs::write(folder.join("d.vcp"), SHARP_BREAK).expect("a file is written");
    let refused = &format!("b.vcp: refused 5: {WRONG_TOTAL}\n");
    let ended = run(&folder, &["list", "a.vcp", "b.vcp", "a.vcp"]);
    assert_eq!(
        ended,
        Ended {
            output: format!("{EXAMPLE_LISTING}refused 5\n{EXAMPLE_LISTING}"),
            errors: refused.to_string(),
            status: 1
        }
    );
    let ended = run(&folder, &["list", "c.vcp", "b.vcp", "a.vcp"]);
    let errors = format!("c.vcp: No such file or directory\n{refused}");
    assert_eq!(ended, Ended { output: format!("refused 5\n{EXAMPLE_LISTING}"), errors, status: 2 });
    let ended = run(&folder, &["list", "d.vcp", "a.vcp"]);
    let errors = format!("d.vcp: refused 25: {SHARP_BREAK_REASON}\n");
    assert_eq!(ended, Ended { output: format!("refused 25\n{EXAMPLE_LISTING}"), errors, status: 1 });
}

/// A file's name stays on its line, and changes nothing on a terminal. It may look like an option.
#[test]
fn odd_names() {
    let folder = folder("list_names");
    for (name, shown) in [("a\nb\u{1b}[31m.vcp", "a\\nb\\u{1b}[31m.vcp"), ("--help", "--help"), ("-o", "-o")] {
        fs::write(folder.join(name), b"").expect("a file is written");
        let errors = format!("{shown}: refused 1: {SHORT_FILE}\n");
        let ended = run(&folder, &["list", "--", name]);
        assert_eq!(ended, Ended { output: "refused 1\n".to_string(), errors, status: 1 });
    }
}
