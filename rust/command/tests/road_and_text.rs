//! `vcp road` and `vcp text`: what they read, write and say.

mod common;

use std::fs::{self, File};
use std::io::Read;
use std::os::unix::fs::{symlink, PermissionsExt};
use std::process::Command;

use common::{command, expect, expect_error, folder, names, root, run, run_with, LONG_ROAD, NO_VERSION, SHORT_FILE};
use sight_tests::random::Random;
use sight_tests::reference::file::bytes;
use sight_tests::roads::{self, SHARP_BREAK, SHARP_BREAK_REASON};

const GOOD: &str = "speed 80 km/h\npurpose 1\nlength 1000 m\nstart height 100.00 m\nfirst grade 0.00 %\n";
const GOOD_FILE: &[u8] = b"VCP\x01\0\x50\x01\xE8\x03\x40\x42\x0F\0\0\0\0";

#[test]
fn a_text_becomes_a_road_file_and_a_text_again() {
    let folder = folder("there_and_back");
    fs::write(folder.join("my road.txt"), GOOD).unwrap();
    expect(&folder, &["road", "my road.txt", "-o", "my road.vcp"], "");
    assert_eq!(fs::read(folder.join("my road.vcp")).unwrap(), GOOD_FILE);
    assert_eq!(run_with(&folder, &["road", "my road.txt"], b"").1, GOOD_FILE);
    assert_eq!(run_with(&folder, &["road", "-"], GOOD.as_bytes()).1, GOOD_FILE);
    expect(&folder, &["text", "my road.vcp"], GOOD);
    expect(&folder, &["text", "my road.vcp", "-o", "again.txt"], "");
    assert_eq!(fs::read_to_string(folder.join("again.txt")).unwrap(), GOOD);
    assert_eq!(names(&folder), ["again.txt", "my road.txt", "my road.vcp"]);
}

/// From bytes to text and back nothing is lost.
#[test]
fn random_roads_there_and_back() {
    let folder = folder("roads_there_and_back");
    let mut random = Random::new(90);
    for round in 0..200 {
        let any = if round % 4 == 0 { roads::any_long_road } else { roads::any_road };
        let file = bytes(&any(&mut random));
        let text = run_with(&folder, &["text", "-"], &file).0;
        assert_eq!((text.errors.as_str(), text.status), ("", 0));
        assert_eq!(run_with(&folder, &["road", "-"], text.output.as_bytes()).1, file, "{}", text.output);
    }
}

/// The version decides which file a text becomes, and is said of version 2 alone.
#[test]
fn versions() {
    let folder = folder("versions");
    let second_file = b"VCP\x02\0\x50\x01\xE8\x03\0\0\x40\x42\x0F\0\0\0\0";
    for (text, file) in [
        (format!("version 1\n{GOOD}"), GOOD_FILE),
        (format!("{GOOD}version 1"), GOOD_FILE),
        (format!("version 2\n{GOOD}"), second_file),
        (format!("{GOOD}version 2"), second_file),
    ] {
        assert_eq!(run_with(&folder, &["road", "-"], text.as_bytes()).1, file, "{text}");
    }
    assert_eq!(run_with(&folder, &["text", "-"], GOOD_FILE).0.output, GOOD);
    assert_eq!(run_with(&folder, &["text", "-"], second_file).0.output, format!("version 2\n{GOOD}"));
    let of = |version: &str, length: u32| format!("{}{version}\n", GOOD.replace("1000", &length.to_string()));
    let long_road = format!("3: refused 8: {LONG_ROAD}");
    let taken = format!("{long_road}; with the line 'version 2' it is taken");
    let no_room = |length: u32| {
        let room = "does not fit a road file of version 1, which has room for 0 to 65535";
        format!("3: length: \"{length}\" {room}; one of version 2 has more")
    };
    for (text, status, line) in [
        (of("", 8_001), 1, &taken),
        (of("version 1", 8_001), 1, &taken),
        (of("version 2", 100_001), 1, &long_road),
        (of("", 65_536), 2, &no_room(65_536)),
        (of("version 1", 70_000), 2, &no_room(70_000)),
        (of("version 3", 70_000), 1, &format!("6: refused 3: {NO_VERSION}")),
        (of("version 0", 70_000), 1, &format!("6: refused 3: {NO_VERSION}")),
        (of("version two", 70_000), 2, &"6: version: \"two\" is no number".to_string()),
    ] {
        fs::write(folder.join("a.txt"), text).unwrap();
        expect_error(&folder, &["road", "a.txt", "-o", "a.vcp"], status, &format!("a.txt:{line}\n"));
    }
    for length in [8_001, 65_536, 100_000] {
        let text = of("version 2", length);
        let file = run_with(&folder, &["road", "-"], text.as_bytes()).1;
        let again = run_with(&folder, &["text", "-"], &file).0.output;
        assert_eq!(again, format!("version 2\n{}", of("", length).trim_end()) + "\n");
    }
    assert_eq!(names(&folder), ["a.txt"]);
}

/// What stood there before gives way, hands on its permissions, and stays where a link leads to it.
#[test]
fn an_earlier_road_file_is_replaced() {
    let folder = folder("replaced");
    fs::write(folder.join("a.txt"), GOOD).unwrap();
    fs::write(folder.join("a.vcp"), "a longer file that stood here before").unwrap();
    fs::set_permissions(folder.join("a.vcp"), fs::Permissions::from_mode(0o640)).unwrap();
    symlink("a.vcp", folder.join("link.vcp")).unwrap();
    let mut before = File::open(folder.join("a.vcp")).unwrap();
    expect(&folder, &["road", "a.txt", "-o", "link.vcp"], "");
    // It was not written over: whoever has the old file open reads it to its end.
    let mut text = String::new();
    before.read_to_string(&mut text).unwrap();
    assert_eq!(text, "a longer file that stood here before");
    assert_eq!(fs::read(folder.join("a.vcp")).unwrap(), GOOD_FILE);
    assert_eq!(fs::metadata(folder.join("a.vcp")).unwrap().permissions().mode() & 0o777, 0o640);
    assert!(fs::symlink_metadata(folder.join("link.vcp")).unwrap().is_symlink());
    assert_eq!(names(&folder), ["a.txt", "a.vcp", "link.vcp"]);
}

/// Where a link leads to no file yet, the file is made there.
#[test]
fn a_link_to_a_new_file() {
    let folder = folder("links");
    fs::write(folder.join("a.txt"), GOOD).unwrap();
    fs::create_dir(folder.join("roads")).unwrap();
    symlink("roads/new.vcp", folder.join("link.vcp")).unwrap();
    expect(&folder, &["road", "a.txt", "-o", "link.vcp"], "");
    assert_eq!(fs::read(folder.join("roads/new.vcp")).unwrap(), GOOD_FILE);
    symlink("loop.vcp", folder.join("loop.vcp")).unwrap();
    let line = "loop.vcp: Too many levels of symbolic links\n";
    expect_error(&folder, &["road", "a.txt", "-o", "loop.vcp"], 2, line);
    assert_eq!(names(&folder), ["a.txt", "link.vcp", "loop.vcp", "roads"]);
    assert_eq!(names(&folder.join("roads")), ["new.vcp"]);
}

/// Of many bad lines the first are said, and of a long word its beginning.
#[test]
fn many_bad_lines() {
    let folder = folder("many_bad_lines");
    fs::write(folder.join("a.txt"), format!("{}\n", "y".repeat(1_000)).repeat(100)).unwrap();
    let ended = run(&folder, &["road", "a.txt"]);
    let lines: Vec<&str> = ended.errors.lines().collect();
    assert_eq!((ended.status, lines.len()), (2, 21));
    let first = format!("a.txt:1: unknown words in \"{}\"...: a line begins with version,", "y".repeat(60));
    assert!(lines[0].starts_with(&first), "{}", lines[0]);
    // 80 lines more, and five that are missing.
    assert_eq!(lines[20], "a.txt: 85 more faults");
}

/// Each bad line has a line of its own, and what stood there before still stands.
#[test]
fn bad_texts_write_nothing() {
    let folder = folder("bad_texts");
    fs::write(folder.join("a.vcp"), "before").unwrap();
    fs::write(folder.join("a.txt"), GOOD.replace("80 km/h", "80 mph").replace("1000", "1000.5")).unwrap();
    let lines = "a.txt:1: speed: the unit is km/h, not \"mph\"\na.txt:3: length: \"1000.5\" is not whole\n";
    expect_error(&folder, &["road", "a.txt", "-o", "a.vcp"], 2, lines);
    fs::write(folder.join("a.txt"), GOOD.replace("speed 80", "speed 131")).unwrap();
    let line = "a.txt:1: refused 6: the speed is not 20 to 130 km/h\n";
    expect_error(&folder, &["road", "a.txt", "-o", "a.vcp"], 1, line);
    fs::write(folder.join("a.txt"), GOOD.to_string() + "curve 999 m, 4 m, 0 %\n").unwrap();
    let line = "a.txt:6: refused 12: a curve begins before station 0 or ends after the road\n";
    expect_error(&folder, &["road", "a.txt", "-o", "a.vcp"], 1, line);
    assert_eq!(fs::read(folder.join("a.vcp")).unwrap(), b"before");
    expect_error(&folder, &["road", "a.txt", "-o", "b.vcp"], 1, line);
    expect_error(&folder, &["road", "a.txt"], 1, line);
    assert_eq!(names(&folder), ["a.txt", "a.vcp"]);
}

/// A sharp break is refused with its line and its reason, as the README says of the shipped text with a unit more; a road file that
/// has one has no text.
#[test]
fn sharp_breaks() {
    let folder = folder("sharp_breaks");
    let shipped = fs::read_to_string(root().join("roads/example.txt")).unwrap();
    fs::create_dir(folder.join("roads")).unwrap();
    fs::write(folder.join("roads/x.txt"), shipped.replace("-5.50 %", "-5.49 %")).unwrap();
    let refused = format!("refused 25: {SHARP_BREAK_REASON}");
    let line = format!("roads/x.txt:11: {refused}");
    expect_error(&folder, &["road", "roads/x.txt", "-o", "x.vcp"], 1, &format!("{line}\n"));
    let readme = fs::read_to_string(root().join("README.md")).unwrap();
    assert!(readme.replace('\n', " ").contains(&format!("`{line}`")));
    fs::write(folder.join("old.vcp"), SHARP_BREAK).unwrap();
    expect_error(&folder, &["text", "old.vcp", "-o", "old.txt"], 1, &format!("old.vcp: {refused}\n"));
    assert_eq!(names(&folder), ["old.vcp", "roads"]);
    // The grade in of the first curve is the first grade, and of two sharp breaks the first is named.
    for (grade, line) in [("5.50", 7), ("5.49", 6)] {
        let breaks = format!("curve 0 m, 0 m, {grade} %\ncurve 1000 m, 0 m, 0 %\n");
        fs::write(folder.join("x.txt"), GOOD.replace("0.00 %", "6.00 %") + &breaks).unwrap();
        expect_error(&folder, &["road", "x.txt"], 1, &format!("x.txt:{line}: {refused}\n"));
    }
}

/// Bytes that are no text may stand in a comment.
#[test]
fn bytes_that_are_no_text() {
    let folder = folder("no_text");
    fs::write(folder.join("a.txt"), [b"# Stra\xDFe\n", GOOD.as_bytes()].concat()).unwrap();
    assert_eq!(run_with(&folder, &["road", "a.txt"], b"").1, GOOD_FILE);
    fs::write(folder.join("a.txt"), [GOOD.as_bytes(), b"curve\xDF"].concat()).unwrap();
    let known = "a line begins with version, speed, purpose, length, start height, first grade or curve";
    let line = format!("a.txt:6: unknown words in \"curve\u{fffd}\": {known}\n");
    expect_error(&folder, &["road", "a.txt"], 2, &line);
}

#[test]
fn refused_road_files_have_no_text() {
    let folder = folder("refused");
    fs::write(folder.join("a.vcp"), &GOOD_FILE[..15]).unwrap();
    expect_error(&folder, &["text", "a.vcp"], 1, &format!("a.vcp: refused 1: {SHORT_FILE}\n"));
    fs::write(folder.join("a.vcp"), GOOD).unwrap();
    let line = "a.vcp: refused 2: the file does not begin with the letters VCP\n";
    expect_error(&folder, &["text", "a.vcp", "-o", "a.txt"], 1, line);
    assert_eq!(names(&folder), ["a.vcp"]);
}

#[test]
fn files_that_cannot_be_written() {
    let folder = folder("files");
    fs::write(folder.join("a.txt"), GOOD).unwrap();
    fs::create_dir(folder.join("a.vcp")).unwrap();
    let there = "No such file or directory";
    expect_error(&folder, &["road", "a.txt", "-o", "no/a"], 2, &format!("no/a: {there}\n"));
    expect_error(&folder, &["road", "a.txt", "-o", "a.vcp"], 2, "a.vcp: Is a directory\n");
    expect_error(&folder, &["road", "a.txt", "-o", ""], 2, &format!(": {there}\n"));
    let replaced = "./a.txt: it would replace what it is made from\n";
    expect_error(&folder, &["road", "a.txt", "-o", "./a.txt"], 2, replaced);
    let from_standard = command()
        .args(["road", "-", "-o", "./a.txt"])
        .current_dir(&folder)
        .stdin(File::open(folder.join("a.txt")).unwrap())
        .output()
        .expect("the command ends");
    assert_eq!(from_standard.status.code(), Some(2));
    assert_eq!(String::from_utf8_lossy(&from_standard.stderr), replaced);
    // A program that runs may not be written. It is copied by another process, for one that is still open here cannot be run.
    let copied = Command::new("cp").args([env!("CARGO_BIN_EXE_vcp"), "vcp"]).current_dir(&folder).status();
    assert!(copied.is_ok_and(|status| status.success()));
    let itself = Command::new("./vcp").args(["road", "a.txt", "-o", "vcp"]).current_dir(&folder).output();
    let itself = itself.expect("the copy runs");
    assert_eq!(String::from_utf8_lossy(&itself.stderr), "vcp: Text file busy\n");
    expect_error(&folder, &["road", "a.txt", "-o", "/dev/full"], 2, "/dev/full: No space left on device\n");
    expect(&folder, &["road", "a.txt", "-o", "/dev/null"], "");
    assert_eq!(names(&folder), ["a.txt", "a.vcp", "vcp"]);
}
