//! The habits of a Unix tool, each tried with every command: on the shipped roads, a refused file, a directory, an empty
//! file, one that is not there, one of 100 MB, a full disk and a closed pipe; and its help.

mod common;

use std::fs::{self, File};
use std::io::{Read, Write};
use std::os::fd::OwnedFd;
use std::os::unix::net::UnixStream;
use std::path::{Path, PathBuf};
use std::process::{Command, Stdio};
use std::thread;

use common::{
    command, expect_error, folder, root, run, run_with, Ended, LONG_LIST, LONG_ROAD, NO_VERSION, SHORT_FILE, TOO_LONG,
    WRONG_TOTAL,
};
use sight_tests::random::Random;
use sight_tests::reference::file::bytes;
use sight_tests::reference::passing::RANGES;
use sight_tests::reference::road::{Curve, Road};
use sight_tests::roads::{self, EXAMPLE, SHARP_BREAK, SHARP_BREAK_REASON};

/// Where a file's name stands in a call.
const FILE: &str = "FILE";

/// The commands that read a road file.
const OF_ROADS: [&[&str]; 9] = [
    &["list", FILE],
    &["report", FILE],
    &["heights", FILE],
    &["sight", FILE],
    &["plot", FILE],
    &["preview", FILE, "--curve", "0", "--length", "20"],
    &["passing", FILE, "320"],
    &["text", FILE],
    &["convert", FILE],
];

/// The commands that read something else.
const CHECK: &[&str] = &["check", "--speed", "90", "--purpose", "1", FILE];
const ROAD: &[&str] = &["road", FILE];

/// The commands that read nothing.
const NUMBERS: [&[&str]; 5] = [
    &["distance", "80", "stopping"],
    &["passing-distance", "--t1", "3.6", "--a", "2.25", "--v", "56.2", "--m", "15", "--t2", "9.3", "--d3", "30"],
    &["sheet"],
    &["crest", "--speed", "80", "--drop", "6.00"],
    &["sag", "--speed", "80", "--rise", "6.00"],
];

const NAMES: [&str; 16] = [
    "list",
    "report",
    "heights",
    "sight",
    "check",
    "plot",
    "preview",
    "passing",
    "road",
    "text",
    "convert",
    "distance",
    "passing-distance",
    "sheet",
    "crest",
    "sag",
];

/// A command on a file.
fn on<'a>(command: &[&'a str], file: &'a str) -> Vec<&'a str> {
    command.iter().map(|&word| if word == FILE { file } else { word }).collect()
}

/// A folder with a road file, its text and its heights, named so that each command has an input it answers for.
fn with_inputs(name: &str) -> PathBuf {
    let folder = folder(name);
    for name in ["three-crests.vcp", "three-crests.txt"] {
        fs::copy(root().join("roads").join(name), folder.join(name)).expect("the road ships with the repository");
    }
    let heights = run(&folder, &["heights", "three-crests.vcp"]).output;
    fs::write(folder.join("heights.csv"), heights).expect("heights are written");
    folder
}

/// Every command with an input that it answers for.
fn answered() -> Vec<Vec<&'static str>> {
    let mut all: Vec<Vec<&str>> = OF_ROADS.iter().map(|command| on(command, "three-crests.vcp")).collect();
    all.push(on(CHECK, "heights.csv"));
    all.push(on(ROAD, "three-crests.txt"));
    all.extend(NUMBERS.iter().map(|command| command.to_vec()));
    all
}

#[test]
fn every_command_is_tried() {
    let mut names: Vec<&str> = answered().iter().map(|arguments| arguments[0]).collect();
    let mut all = NAMES;
    names.sort_unstable();
    all.sort_unstable();
    assert_eq!(names, all);
}

/// Each answers for its input, with status 0 and nothing on standard error; the same from standard input.
#[test]
fn shipped_roads() {
    let folder = with_inputs("habits_shipped");
    for arguments in answered() {
        let (ended, bytes) = run_with(&folder, &arguments, b"");
        assert_eq!((ended.errors.as_str(), ended.status), ("", 0), "{arguments:?}");
        assert!(!bytes.is_empty(), "{arguments:?}");
        if let Some(file) = arguments.iter().find(|word| folder.join(word).is_file()) {
            let input = fs::read(folder.join(file)).expect("the input is there");
            let standard = arguments.iter().map(|word| if word == file { "-" } else { word });
            let (from_standard, its_bytes) = run_with(&folder, &standard.collect::<Vec<_>>(), &input);
            let named = ended.output.replacen(&format!("{file}: "), "-: ", 1);
            assert_eq!((from_standard.output, from_standard.status), (named, 0), "{arguments:?}");
            let named = ["report", "check", "preview", "passing"].contains(&arguments[0]);
            assert!(bytes == its_bytes || named, "{arguments:?}");
        }
    }
    for name in ["example.vcp", "level.vcp", "three-crests.vcp", "valley.vcp"] {
        for command in OF_ROADS {
            // The level road has no curve whose length could be another, and the valley road is too long to be listed, and for
            // version 1.
            let refused = match command[0] {
                "preview" => ["level.vcp", "valley.vcp"].contains(&name),
                "list" | "convert" => name == "valley.vcp",
                _ => false,
            };
            let ended = run(&root().join("roads"), &on(command, name));
            assert_eq!(ended.status, i32::from(refused), "{command:?} {name}");
        }
    }
}

/// A refusal is one line on standard error: the file, 'refused', the number, the reason. Only the listing has one too.
fn expect_refused(folder: &Path, command: &[&str], file: &str, number: u32, reason: &str) {
    let output = if command[0] == "list" { format!("refused {number}\n") } else { String::new() };
    let errors = format!("{file}: refused {number}: {reason}\n");
    assert_eq!(run(folder, &on(command, file)), Ended { output, errors, status: 1 }, "{command:?}");
}

#[test]
fn refused_and_empty_files() {
    let folder = folder("habits_refused");
    let mut file = EXAMPLE;
    file[5] = 19;
    fs::write(folder.join("slow.vcp"), file).unwrap();
    fs::write(folder.join("empty"), b"").unwrap();
    fs::write(folder.join("sharp.vcp"), SHARP_BREAK).unwrap();
    for command in OF_ROADS {
        expect_refused(&folder, command, "sharp.vcp", 25, SHARP_BREAK_REASON);
        expect_refused(&folder, command, "slow.vcp", 6, "the speed is not 20 to 130 km/h");
        expect_refused(&folder, command, "empty", 1, SHORT_FILE);
    }
    expect_refused(&folder, CHECK, "empty", 19, LONG_LIST);
    let missing = ["speed", "purpose", "length", "start height", "first grade"];
    let lines: String = missing.iter().map(|name| format!("empty:1: the line {name} is missing\n")).collect();
    expect_error(&folder, &on(ROAD, "empty"), 2, &lines);
}

/// Every command takes both versions, and all but the listing and the preview take roads over 8,000 m, of which there is no file of
/// version 1.
#[test]
fn versions_and_long_roads() {
    let folder = folder("habits_versions");
    let curves = vec![Curve { pvi: 5_000, length: 10, grade_out: -600 }];
    let road = |version: u16, length: u32| Road {
        version,
        speed: 40,
        purpose: 1,
        length,
        start_height: 0,
        first_grade: 600,
        curves: curves.clone(),
    };
    for (version, length) in [(1, 8_000), (2, 8_000), (2, 8_001), (2, 100_000)] {
        fs::write(folder.join("a.vcp"), bytes(&road(version, length))).unwrap();
        for command in OF_ROADS {
            match command[0] {
                "list" | "preview" if length > 8_000 => expect_refused(&folder, command, "a.vcp", 8, LONG_ROAD),
                "convert" if length > 8_000 => expect_refused(&folder, command, "a.vcp", 27, TOO_LONG),
                _ => {
                    let ended = run(&folder, &on(command, "a.vcp"));
                    assert_eq!((ended.errors.as_str(), ended.status), ("", 0), "{command:?}, {version}, {length}");
                }
            }
        }
    }
    let file = bytes(&road(2, 8_000));
    for many in [15, 16, 17] {
        fs::write(folder.join("a.vcp"), &file[..many]).unwrap();
        OF_ROADS.iter().for_each(|command| expect_refused(&folder, command, "a.vcp", 1, SHORT_FILE));
    }
    for many in [18, 25] {
        fs::write(folder.join("a.vcp"), &file[..many]).unwrap();
        OF_ROADS.iter().for_each(|command| expect_refused(&folder, command, "a.vcp", 5, WRONG_TOTAL));
    }
    for version in [0, 3, 256, 513] {
        let others = [&file[..3], &u16::to_le_bytes(version), &file[5..16]].concat();
        fs::write(folder.join("a.vcp"), others).unwrap();
        OF_ROADS.iter().for_each(|command| expect_refused(&folder, command, "a.vcp", 3, NO_VERSION));
    }
}

/// A directory, and a file that is not there, cannot be read.
#[test]
fn directories_and_missing_files() {
    let folder = folder("habits_directory");
    fs::create_dir(folder.join("roads")).unwrap();
    for command in OF_ROADS.iter().chain([&CHECK, &ROAD]) {
        expect_error(&folder, &on(command, "roads"), 2, "roads: Is a directory\n");
        expect_error(&folder, &on(command, "none.vcp"), 2, "none.vcp: No such file or directory\n");
    }
}

/// A file that begins so and has 100 MB.
fn large(folder: &Path, name: &str, begin: &[u8]) {
    let mut file = File::create(folder.join(name)).expect("a file can be made");
    file.write_all(begin).expect("its begin is written");
    file.set_len(100_000_000).expect("it can be long");
}

/// Of 100 MB no more is read than is needed.
#[test]
fn large_files() {
    let folder = folder("habits_large");
    large(&folder, "zeros", b"");
    large(&folder, "road", &EXAMPLE);
    let heights: String = (0..110_000).map(|station| format!("{station},100.0\n")).collect();
    large(&folder, "heights", heights.as_bytes());
    for command in OF_ROADS {
        expect_refused(&folder, command, "zeros", 2, "the file does not begin with the letters VCP");
        expect_refused(&folder, command, "road", 5, WRONG_TOTAL);
    }
    expect_error(&folder, &on(CHECK, "zeros"), 2, "zeros:1: the line has 1000 bytes or more\n");
    expect_refused(&folder, CHECK, "heights", 19, LONG_LIST);
    expect_error(&folder, &on(ROAD, "zeros"), 2, "zeros: a text of more than 1048576 bytes is not read\n");
}

/// Runs the command with this in the place of standard output, and answers its status and its errors.
fn into(folder: &Path, arguments: &[&str], output: impl Into<Stdio>) -> (Option<i32>, String) {
    let mut running = command();
    running.args(arguments).current_dir(folder).stdin(Stdio::null()).stdout(output).stderr(Stdio::piped());
    let ended = running.spawn().and_then(|running| running.wait_with_output()).expect("the command runs and ends");
    (ended.status.code(), String::from_utf8(ended.stderr).expect("errors are text"))
}

/// A full disk is an error, for what the command says of itself too.
#[test]
fn full_disk() {
    let folder = with_inputs("habits_full");
    let full = || File::options().write(true).open("/dev/full").expect("the system has a full device");
    let line = "standard output: No space left on device\n";
    let of_itself = [vec!["--help"], vec!["--version"], vec!["list", "--help"]];
    for arguments in answered().into_iter().chain(of_itself) {
        assert_eq!(into(&folder, &arguments, full()), (Some(2), line.to_string()), "{arguments:?}");
    }
    let missing = "none: No such file or directory\n";
    for arguments in [["list", "none", "three-crests.vcp"], ["list", "three-crests.vcp", "none"]] {
        assert_eq!(into(&folder, &arguments, full()), (Some(2), format!("{missing}{line}")), "{arguments:?}");
    }
}

/// A closed pipe ends it quietly; what went wrong before that is still said.
#[test]
fn closed_pipe() {
    let folder = with_inputs("habits_pipe");
    let mut file = EXAMPLE;
    file[5] = 19;
    fs::write(folder.join("slow.vcp"), file).unwrap();
    let closed = || OwnedFd::from(UnixStream::pair().expect("two ends of a pipe").0);
    for arguments in answered().into_iter().chain([vec!["--help"]]) {
        assert_eq!(into(&folder, &arguments, closed()), (Some(0), String::new()), "{arguments:?}");
    }
    // Much more than is written at once, and nobody reads it: what stands behind it is not looked at any more.
    let many = [vec!["list"], vec!["three-crests.vcp"; 2_000], vec!["slow.vcp"]].concat();
    assert_eq!(into(&folder, &many, closed()), (Some(0), String::new()));
    let refused = "slow.vcp: refused 6: the speed is not 20 to 130 km/h\n".to_string();
    for arguments in [["list", "slow.vcp", "three-crests.vcp"], ["list", "three-crests.vcp", "slow.vcp"]] {
        assert_eq!(into(&folder, &arguments, closed()), (Some(1), refused.clone()), "{arguments:?}");
    }
}

/// A command that has -o writes its answer neither over what it is made from nor behind it, where standard output is that file.
#[test]
fn standard_output_that_is_the_input() {
    let folder = with_inputs("habits_itself");
    let line = "standard output: it would replace what it is made from\n";
    let roads = ["heights", "sight", "plot", "text", "convert"].map(|name| [name, "three-crests.vcp"]);
    for [name, file] in roads.into_iter().chain([["road", "three-crests.txt"]]) {
        let before = fs::read(folder.join(file)).expect("the input is there");
        let behind = || File::options().append(true).open(folder.join(file)).expect("it can be written");
        assert_eq!(into(&folder, &[name, file], behind()), (Some(2), line.to_string()), "{name}");
        let named = into(&folder, &[name, file, "-o", "/dev/stdout"], behind());
        assert_eq!(named, (Some(2), line.replace("standard output", "/dev/stdout")), "{name}");
        assert_eq!(fs::read(folder.join(file)).expect("the input is there"), before, "{name}");
    }
}

/// A named pipe that is closed ends it as quietly.
#[test]
fn closed_named_pipe() {
    let folder = with_inputs("habits_named_pipe");
    let made = Command::new("mkfifo").arg(folder.join("pipe")).status().expect("the system has mkfifo");
    assert!(made.success());
    let pipe = folder.join("pipe");
    // The heights of the longest road are more than a pipe holds.
    fs::write(folder.join("long.vcp"), bytes(&roads::longest(&mut Random::new(91)))).unwrap();
    let reader = thread::spawn(move || File::open(pipe).and_then(|mut pipe| pipe.read_exact(&mut [0; 5])));
    let ended = into(&folder, &["heights", "long.vcp", "-o", "pipe"], Stdio::null());
    assert_eq!(ended, (Some(0), String::new()));
    reader.join().expect("the reader ends").expect("it had five bytes");
}

/// What was answered before a refused file stands before its complaint.
#[test]
fn answers_and_complaints_in_order() {
    let folder = with_inputs("habits_order");
    fs::write(folder.join("empty"), b"").unwrap();
    let listing = run(&folder, &["list", "three-crests.vcp"]).output;
    let both = File::create(folder.join("both")).expect("a file can be made");
    let mut running = command();
    running.args(["list", "three-crests.vcp", "empty", "three-crests.vcp"]).current_dir(&folder);
    running.stdout(both.try_clone().expect("a file has two handles")).stderr(both);
    assert_eq!(running.status().expect("the command ends").code(), Some(1));
    let refused = format!("refused 1\nempty: refused 1: {SHORT_FILE}\n");
    assert_eq!(fs::read_to_string(folder.join("both")).unwrap(), format!("{listing}{refused}{listing}"));
}

/// That both engines agree is said behind their table, also where nobody reads that any more, and not where it cannot be written.
#[test]
fn agreement_behind_the_table() {
    let folder = with_inputs("habits_agreement");
    let call = ["sight", "three-crests.vcp", "--both"];
    let agreement = "three-crests.vcp: both engines agree at all 1501 stations from 0 to 1500\n".to_string();
    let table = run(&folder, &call).output;
    let both = File::create(folder.join("both")).expect("a file can be made");
    let mut running = command();
    running.args(call).current_dir(&folder);
    running.stdout(both.try_clone().expect("a file has two handles")).stderr(both);
    assert_eq!(running.status().expect("the command ends").code(), Some(0));
    assert_eq!(fs::read_to_string(folder.join("both")).unwrap(), format!("{table}{agreement}"));
    let closed = OwnedFd::from(UnixStream::pair().expect("two ends of a pipe").0);
    assert_eq!(into(&folder, &call, closed), (Some(0), agreement));
    let full = File::options().write(true).open("/dev/full").expect("the system has a full device");
    let line = "standard output: No space left on device\n".to_string();
    assert_eq!(into(&folder, &call, full), (Some(2), line));
    for (file, why) in [
        ("none/a.csv", "No such file or directory"),
        (".", "Is a directory"),
        ("/dev/full", "No space left on device"),
        ("three-crests.vcp", "it would replace what it is made from"),
    ] {
        expect_error(&folder, &[&call[..], &["-o", file]].concat(), 2, &format!("{file}: {why}\n"));
    }
    // What would be replaced is said before an engine is asked, and refuses.
    let replaced = "three-crests.vcp: it would replace what it is made from\n";
    for engine in ["--slow", "--both"] {
        let call = ["sight", "three-crests.vcp", engine, "--farthest=0", "-o", "three-crests.vcp"];
        expect_error(&folder, &call, 2, replaced);
    }
}

/// A road file is not written to a terminal, which is standard output where -o does not name a file. It goes into the file that -o
/// names, and to wherever else standard output leads.
#[test]
fn terminal() {
    let folder = with_inputs("habits_terminal");
    let on_terminal = |call: &str| {
        let ended = Command::new("script")
            .args(["-qec", &format!("\"$VCP\" {call}"), "/dev/null"])
            .envs([("VCP", env!("CARGO_BIN_EXE_vcp")), ("SHELL", "/bin/sh")])
            .current_dir(&folder)
            .output()
            .expect("the system has script, which gives a terminal");
        (ended.status.code(), String::from_utf8(ended.stdout).expect("errors are text"))
    };
    for [name, file] in [["road", "three-crests.txt"], ["convert", "three-crests.vcp"]] {
        for out in ["", " -o -", " -o /dev/stdout"] {
            let (status, said) = on_terminal(&format!("{name} {file}{out}"));
            let line = format!("vcp {name}: a road file is not for a terminal: name a file with -o\r\n");
            assert!(said.starts_with(&line), "{said}");
            assert_eq!(status, Some(2));
        }
        let answer = run_with(&folder, &[name, file], b"").1;
        for out in ["-o out", "> out", "| cat > out"] {
            let _ = fs::remove_file(folder.join("out"));
            assert_eq!(on_terminal(&format!("{name} {file} {out}")), (Some(0), String::new()), "{name} {out}");
            assert_eq!(fs::read(folder.join("out")).expect("the file is there"), answer, "{name} {out}");
        }
    }
}

/// Where standard error cannot be written the status still tells.
#[test]
fn errors_that_cannot_be_written() {
    let folder = folder("habits_errors");
    let full = File::options().write(true).open("/dev/full").expect("the system has a full device");
    let ended = command().args(["list", "none"]).current_dir(folder).stderr(full).status();
    assert_eq!(ended.expect("the command ends").code(), Some(2));
}

/// Help for all names each command, and help for each says how it is called and names each option.
#[test]
fn help() {
    let folder = folder("habits_help");
    let overview = run(&folder, &["--help"]);
    assert_eq!((overview.errors.as_str(), overview.status), ("", 0));
    assert_eq!(run(&folder, &["-h"]), overview);
    for name in NAMES {
        assert!(overview.output.contains(&format!("\n  {name} ")), "{name}");
        let help = run(&folder, &[name, "--help"]);
        assert_eq!((help.errors.as_str(), help.status), ("", 0), "{name}");
        let usage = help.output.lines().next().expect("a first line");
        assert!(usage.starts_with(&format!("usage: vcp {name} ")), "{usage}");
        let words = usage.split(|letter: char| " []".contains(letter));
        let in_usage: Vec<&str> = words.filter(|word| word.starts_with('-')).collect();
        let rows = help.output.lines().filter_map(|line| line.strip_prefix("  -"));
        let in_rows: Vec<String> = rows.map(|row| format!("-{}", row.split(' ').next().unwrap_or_default())).collect();
        assert_eq!(in_rows, in_usage, "{name}");
        assert_eq!(run(&folder, &[name, "x", "--nothing", "-h"]), help, "{name}");
        assert!(help.output.lines().skip(1).all(|line| line.chars().count() <= 80), "{name}");
    }
    assert!(overview.output.lines().all(|line| line.chars().count() <= 80));
    for word in ["0 answered", "1 refused", "2 used wrongly", "standard input"] {
        assert!(overview.output.contains(word), "{word}");
    }
    let version = format!("vcp {}\n", env!("CARGO_PKG_VERSION"));
    common::expect(&folder, &["--version"], &version);
    common::expect(&folder, &["-V"], &version);
}

/// What the help says besides is so: defaults, limits, letters and the example of a text.
#[test]
fn help_is_true() {
    let folder = folder("habits_help_is_true");
    let help = |name: &str| run(&folder, &[name, "--help"]).output;
    let row = |name: &str, option: &str| {
        let help = help(name);
        help.lines().find(|line| line.trim_start().starts_with(option)).expect("the option has a row").to_string()
    };
    let words = |name: &str| help(name).split_whitespace().collect::<Vec<_>>().join(" ");
    let metres = |height: u32| format!("({})", roadtext::decimal::write(height.into(), 4, 2));
    for name in ["sight", "crest"] {
        assert!(row(name, "--eye").ends_with(&metres(exports::EYE_HEIGHT)), "{name}");
        assert!(row(name, "--object").ends_with(&metres(exports::OBJECT_HEIGHT)), "{name}");
    }
    assert!(row("sight", "--farthest").ends_with(&format!("({})", exports::GREATEST_FARTHEST)));
    for name in ["report", "sight", "check", "plot"] {
        assert!(row(name, "--back").ends_with(" for the lane coming back, towards falling stations"), "{name}");
    }
    for (name, part) in [
        ("report", "the greatest of the road's grades, or 0 if none is positive, which they drive down"),
        ("report", "what is not judged is at the road's start."),
        ("sight", "in the direction of rising stations, with --back in that of falling ones."),
        ("check", "a grade is that of rising stations either way, and whoever comes back drives down what rises."),
        ("plot", "With --both-lanes there is a set of rows for each lane, and below the road a second line"),
        ("plot", "Neither --passing nor --both-lanes goes with --back."),
        ("list", "All of it is for drivers towards rising stations"),
        ("preview", "All of it is for drivers towards rising stations."),
    ] {
        assert!(words(name).contains(part), "{name}: {part}");
    }
    assert!(row("sight", "--slow").ends_with(" by the slow engine"));
    assert!(row("sight", "--both").ends_with(" by both engines"));
    for part in [
        "The slow engine gives the same sights in a way that anyone can follow: for each object station every station between is looked at, with nothing remembered.",
        "Its time grows with the square of the sight: all of a level road of 8 km takes it minutes, and of a longer one hours, unless --farthest, or --from and --to, ask for less.",
        "With --both the sights of the quick and of the slow engine stand side by side, and a line on standard error says that they agree; where they do not, it says so, and the status is 2.",
    ] {
        assert!(words("sight").contains(part), "{part}");
    }
    assert!(help("check").contains(&format!(" at most {} of them", exports::GREATEST_LIST)));
    let speeds = format!("A row for each speed from {} to {} km/h", exports::LEAST_SPEED, exports::GREATEST_SPEED);
    assert!(
        help("sheet").contains(&speeds)
            && help("sheet").contains("Prints all required distances on a level road in m.\n")
    );
    for name in ["distance", "check"] {
        assert!(row(name, "--grade").ends_with("uphill positive, as -6.00 (0.00)"), "{name}");
    }
    for name in ["list", "report", "plot"] {
        assert!(words(name).contains("the least of the road's grades, or 0 if none is negative"), "{name}");
    }
    for (name, change, meaning) in [
        ("crest", "--drop", "grade in less grade out, as 6.00 from 4 % to -2 %"),
        ("sag", "--rise", "grade out less grade in, as 6.00 from -2 % to 4 %"),
    ] {
        assert!(words(name).contains(&format!("Prints the least length of a {name} in m.")), "{name}");
        assert!(row(name, change).ends_with(meaning), "{name}");
        assert!(row(name, "--sight").ends_with("(the stopping distance)"), "{name}");
        assert!(words(name).contains("a road that falls give --sight, with what 'vcp distance' prints for --grade."));
        assert!(words(name).contains("the stopping distance of that speed on the level."), "{name}");
        assert!(words(name).contains("at least 0.6 m for each km/h of the speed."), "{name}");
        common::expect(&folder, &[name, "--speed", "100", change, "0.01"], "60\n");
    }
    for ((option, meaning, unit, decimals), range) in [
        ("--t1", "time of the initial manoeuvre", "s", 1),
        ("--a", "average acceleration", "km/h/s", 2),
        ("--v", "average speed of the passing car", "km/h", 1),
        ("--m", "how much faster it is than the other", "km/h", 1),
        ("--t2", "time in the left lane", "s", 1),
        ("--d3", "clearance to the oncoming car", "m", 0),
    ]
    .into_iter()
    .zip(RANGES)
    {
        let [least, greatest] =
            [range.start(), range.end()].map(|&end| roadtext::decimal::write(end.into(), decimals, 0));
        let own = format!(" {meaning}, {least} to {greatest} {unit}");
        assert!(row("passing-distance", option).ends_with(&own), "{option}{own}");
    }
    for part in [
        "d1 + d2 + d3 + d4, rounded up to 5 m",
        "d1 = 0.278 t1 (v - m + a t1 / 2)",
        "d2 = 0.278 v t2",
        "two thirds of d2",
    ] {
        assert!(words("passing-distance").contains(part), "{part}");
    }
    let rows = "two rows more: where passing sight is lacking, and where passing is not judged.";
    assert!(words("plot").contains(rows) && words("passing").contains("a driver towards rising stations"));
    assert!(words("plot").contains("Above the curves stand their places, counted from 0, where there is room."));
    assert!(row("preview", "--curve").ends_with("the curve's place, counted from 0"));
    for part in [
        "Curves are counted from 0, in the order of 'vcp text': these are the numbers above the curves in the picture of 'vcp plot'.",
        "A \" stands for the zone above it, which reaches into its row too.",
        "Stations that S or D gains lack sight after the change, and those that they lose have it.",
        "no file is written unless -o names one for the changed road, and that may be neither FILE nor - nor a name in .svg.",
        "A refusal of the changed road names it as 'FILE with curve ...'.",
    ] {
        assert!(words("preview").contains(part), "{part}");
    }
    let height = format!("eye and object being {} m high", roadtext::decimal::write(exports::EYE_HEIGHT.into(), 4, 2));
    assert!(words("passing").contains(&height) && exports::EYE_HEIGHT == exports::PASSING_OBJECT_HEIGHT);
    let [short, long] = [exports::SHORT_STATIONS, exports::LONG_STATIONS].map(|stations| stations - 1);
    for (name, part) in [
        ("list", format!("A road over {short} m is refused 8 here")),
        ("preview", format!("A road over {short} m is refused 8 here")),
        ("plot", format!("A road over {short} m is drawn in stretches of at most 8000 m, one below the other;")),
        ("road", format!("A line 'version 2' makes the file one of version 2, whose road has at most {long} m;")),
        ("road", format!("without such a line, it is of version 1, and its road has at most {short} m.")),
        ("convert", format!("A road over {short} m is refused 27 where version 1 is wanted.")),
    ] {
        assert!(words(name).contains(&part), "{part}");
    }
    for part in [
        "Prints a road file in the other version.",
        "A file of version 2 becomes one of version 1, which programs that know no other can read, and a file of version 1 becomes one of version 2.",
        "The road in it is the same, and converted back it is FILE again, byte for byte.",
        "With --to OUT has that version, whichever FILE has: a file that has it already is written as it is.",
        "OUT may not be FILE itself.",
    ] {
        assert!(words("convert").contains(part), "{part}");
    }
    assert!(row("convert", "--to").ends_with(" the version of OUT, 1 or 2 (the one FILE has not)"));
    let letters = ["S  stopping sight is lacking", "D  decision sight is lacking", "s  stopping is not judged"];
    for line in letters.into_iter().chain(["R  reduced decision zone", "d  the decision is not judged"]) {
        assert!(help("list").contains(&format!("\n  {line}")), "{line}");
    }
    let help = help("road");
    let example = help.lines().filter_map(|line| line.strip_prefix("  ")).take(6);
    let text: String = example.map(|line| format!("{line}\n")).collect();
    assert_eq!(run_with(&folder, &["road", "-"], text.as_bytes()).0.status, 0, "{text}");
    assert!(words("road").contains("One of length 0 is a break in grade: by more than 0.50 % it is refused 25."));
    for (grade, refused) in [("-2.50", false), ("-1.50", false), ("-2.51", true), ("-1.49", true)] {
        let text = format!("{text}curve 900 m, 0 m, {grade} %\n");
        let ended = run_with(&folder, &["road", "-"], text.as_bytes()).0;
        assert_eq!((ended.status == 1, ended.errors.starts_with("-:7: refused 25: ")), (refused, refused), "{text}");
    }
}

#[test]
fn unknown_commands() {
    let folder = folder("habits_unknown");
    let names =
        "commands: list, report, heights, sight, check, plot, preview, passing, road, text, convert, distance, passing-distance, \
         sheet, crest, sag; see vcp --help\n";
    expect_error(&folder, &[], 2, &format!("vcp: a command is missing\n{names}"));
    for word in ["lists", "LIST", "--list", "", "-"] {
        expect_error(&folder, &[word], 2, &format!("vcp: there is no command {word:?}\n{names}"));
    }
}

/// Operands that are missing or too many, and options that the command does not have.
#[test]
fn wrong_arguments() {
    let folder = folder("habits_wrong");
    for command in OF_ROADS {
        common::expect_wrong(&folder, &command[..1], "FILE is missing");
        common::expect_wrong(&folder, &on(command, "--nothing"), "there is no option --nothing");
        common::expect_wrong(&folder, &on(command, "--a\nb\u{1b}[31m"), "there is no option --a\\nb\\u{1b}[31m");
        if !["list", "report"].contains(&command[0]) {
            let more = [&on(command, "a")[..], &["b"]].concat();
            common::expect_wrong(&folder, &more, "\"b\" is one argument too many");
        }
        if ["heights", "sight", "plot", "preview", "text", "convert"].contains(&command[0]) {
            common::expect_wrong(&folder, &[command[0], "a", "-o"], "-o needs OUT");
            common::expect_wrong(&folder, &[command[0], "a", "-o", "b", "-o", "c"], "-o stands twice");
        }
    }
    common::expect_wrong(&folder, &["passing", "a"], "DISTANCE is missing");
    common::expect_wrong(&folder, &CHECK[..5], "HEIGHTS is missing");
    common::expect_wrong(&folder, &["road"], "TEXT is missing");
}
