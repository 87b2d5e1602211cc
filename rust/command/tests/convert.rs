//! `vcp convert`: a road file in the other version, or in the one that is wanted.

mod common;

use std::fs::{self, File};
use std::os::unix::fs::symlink;
use std::path::Path;
use std::process::Stdio;

use common::{
    command, expect, expect_error, expect_wrong, folder, names, root, run, run_with, SHORT_FILE, TOO_LONG, WRONG_TOTAL,
};
use sight_tests::pages::{block, text};
use sight_tests::random::Random;
use sight_tests::reference::file::bytes;
use sight_tests::reference::road::{Curve, Road};
use sight_tests::roads::{
    self, in_version, EXAMPLE, EXAMPLE_VERSION_2, LONG_EXAMPLE, SHARP_BREAK, SHARP_BREAK_REASON, VERSIONS,
};

/// What converts FILE into OUT.
const CONVERT: [&str; 4] = ["convert", "a.vcp", "-o", "b.vcp"];

/// A call with more behind it.
fn with<'a>(call: &[&'a str], more: &[&'a str]) -> Vec<&'a str> {
    [call, more].concat()
}

/// The files a.vcp and b.vcp of a folder.
fn both(folder: &Path) -> [Vec<u8>; 2] {
    ["a.vcp", "b.vcp"].map(|name| fs::read(folder.join(name)).expect("the file is there"))
}

/// The example in either version: without --to it becomes the other one, and with it the one that is wanted.
#[test]
fn versions() {
    let folder = folder("convert_versions");
    let examples = [&EXAMPLE[..], &EXAMPLE_VERSION_2];
    for (own, file) in examples.into_iter().enumerate() {
        let other = examples[1 - own];
        fs::write(folder.join("a.vcp"), file).unwrap();
        for (to, wanted) in [
            (&[][..], other),
            (&["--to", "1"], examples[0]),
            (&["--to", "2"], examples[1]),
            (&["--to=1"], examples[0]),
            (&["--to=2"], examples[1]),
        ] {
            expect(&folder, &with(&CONVERT, to), "");
            assert_eq!(both(&folder), [file, wanted], "{to:?}");
            assert_eq!(run_with(&folder, &with(&["convert", "a.vcp"], to), b"").1, wanted, "{to:?}");
            assert_eq!(run_with(&folder, &with(&["convert", "-", "-o", "-"], to), file).1, wanted, "{to:?}");
        }
        expect(&folder, &CONVERT, "");
        expect(&folder, &["convert", "b.vcp", "-o", "c.vcp"], "");
        assert_eq!(fs::read(folder.join("c.vcp")).unwrap(), file, "there and back");
    }
    assert_eq!(names(&folder), ["a.vcp", "b.vcp", "c.vcp"]);
}

/// Random roads: the file is the second calculation's, and the listing says the other version and is the same besides.
#[test]
fn random_roads() {
    let folder = folder("convert_random");
    let mut random = Random::new(141);
    for _ in 0..60 {
        let road = roads::any_road(&mut random);
        fs::write(folder.join("a.vcp"), bytes(&road)).unwrap();
        for version in VERSIONS {
            let to = version.to_string();
            expect(&folder, &with(&CONVERT, &["--to", &to]), "");
            assert_eq!(both(&folder), [bytes(&road), bytes(&in_version(version, &road))]);
            let [own, there] = ["a.vcp", "b.vcp"].map(|name| run(&folder, &["list", name]).output);
            let first = |version: u16| format!("VCP {version} ");
            assert_eq!(there, own.replacen(&first(road.version), &first(version), 1));
        }
    }
}

/// The words of a call.
fn words(call: &str) -> Vec<&str> {
    call.split(' ').collect()
}

/// What the README shows.
#[test]
fn calls_of_the_readme() {
    let folder = folder("convert_readme");
    fs::create_dir(folder.join("roads")).unwrap();
    for name in ["roads/example.vcp", "roads/valley.vcp"] {
        fs::copy(root().join(name), folder.join(name)).unwrap();
    }
    let first = "convert roads/example.vcp -o example-2.vcp";
    expect(&folder, &words(first), "");
    let readme = text("README.md");
    let shown = block(&readme, &format!("$ vcp {first}"));
    let calls = shown.iter().filter_map(|line| line.strip_prefix("$ vcp "));
    let said: String = calls
        .map(|call| {
            let ended = run(&folder, &words(call));
            format!("$ vcp {call}\n{}{}", ended.output, ended.errors)
        })
        .collect();
    assert_eq!(said, shown.join("\n") + "\n");
    assert_eq!(names(&folder), ["example-1.vcp", "example-2.vcp", "roads"]);
    assert_eq!(fs::read(folder.join("example-1.vcp")).unwrap(), EXAMPLE);
}

/// The shipped roads: the converted file is that of the shipped text for version 2.
#[test]
fn shipped_roads() {
    let folder = folder("convert_shipped");
    for name in ["example", "level", "three-crests"] {
        let file = fs::read(root().join(format!("roads/{name}.vcp"))).unwrap();
        fs::write(folder.join("a.vcp"), &file).unwrap();
        expect(&folder, &CONVERT, "");
        let text = fs::read_to_string(root().join(format!("roads/{name}.txt"))).unwrap();
        let second = run_with(&folder, &["road", "-"], format!("version 2\n{text}").as_bytes()).1;
        assert_eq!(both(&folder), [file, second], "{name}");
    }
    let refused = format!("valley.vcp: refused 27: {TOO_LONG}\n");
    fs::copy(root().join("roads/valley.vcp"), folder.join("valley.vcp")).unwrap();
    expect_error(&folder, &["convert", "valley.vcp", "-o", "old.vcp"], 1, &refused);
    assert_eq!(names(&folder), ["a.vcp", "b.vcp", "valley.vcp"]);
}

/// A road over 8,000 m has no file of version 1; where version 2 is wanted it is written as it is.
#[test]
fn long_roads() {
    let folder = folder("convert_long");
    let level = |length: u32| Road { length, ..roads::one_crest(0, 2, 2, 10) };
    for (length, refused) in [(8_000, false), (8_001, true), (65_836, true), (100_000, true)] {
        let file = bytes(&in_version(2, &level(length)));
        fs::write(folder.join("a.vcp"), &file).unwrap();
        for to in [&[][..], &["--to", "1"]] {
            fs::write(folder.join("b.vcp"), "before").unwrap();
            match refused {
                true => {
                    let line = format!("a.vcp: refused 27: {TOO_LONG}\n");
                    expect_error(&folder, &with(&CONVERT, to), 1, &line);
                    expect_error(&folder, &with(&["convert", "a.vcp"], to), 1, &line);
                    assert_eq!(both(&folder), [&file[..], b"before"]);
                }
                false => {
                    expect(&folder, &with(&CONVERT, to), "");
                    assert_eq!(both(&folder), [file.clone(), bytes(&level(length))]);
                }
            }
        }
        expect(&folder, &with(&CONVERT, &["--to", "2"]), "");
        assert_eq!(both(&folder), [&file[..]; 2]);
    }
}

/// A refused file is said as every command says it, whatever is wanted, and nothing is written.
#[test]
fn refused_files() {
    let folder = folder("convert_refused");
    let mut slow = LONG_EXAMPLE;
    slow[5] = 19;
    // The longest file there is, and a byte behind it.
    let curves = vec![Curve { pvi: 10, length: 0, grade_out: 0 }; 32];
    let longer = [bytes(&Road { version: 2, curves, ..roads::one_crest(0, 2, 2, 10) }), vec![0]].concat();
    assert_eq!(longer.len(), exports::ENOUGH_BYTES);
    for (file, line) in [
        (&longer[..], format!("refused 5: {WRONG_TOTAL}")),
        (&slow, "refused 6: the speed is not 20 to 130 km/h".to_string()),
        (&EXAMPLE[..15], format!("refused 1: {SHORT_FILE}")),
        (&SHARP_BREAK, format!("refused 25: {SHARP_BREAK_REASON}")),
    ] {
        fs::write(folder.join("a.vcp"), file).unwrap();
        for to in [&[][..], &["--to", "1"], &["--to", "2"]] {
            expect_error(&folder, &with(&CONVERT, to), 1, &format!("a.vcp: {line}\n"));
            let from_standard = run_with(&folder, &with(&["convert", "-", "-o", "b.vcp"], to), file).0;
            assert_eq!((from_standard.errors, from_standard.status), (format!("-: {line}\n"), 1), "{to:?}");
        }
        assert_eq!(fs::read(folder.join("a.vcp")).unwrap(), file);
        assert_eq!(names(&folder), ["a.vcp"]);
    }
}

/// OUT is never FILE: by no other path or link, not where it comes on standard input, and not where it is standard output. A second
/// hard name of FILE becomes a file of its own. This is so where the file would be written as it is, too.
#[test]
fn the_file_itself_is_not_replaced() {
    let folder = folder("convert_itself");
    fs::write(folder.join("a.vcp"), EXAMPLE).unwrap();
    symlink("a.vcp", folder.join("link.vcp")).unwrap();
    for to in [&[][..], &["--to", "1"], &["--to", "2"]] {
        for out in ["a.vcp", "./a.vcp", "link.vcp", "../convert_itself/a.vcp"] {
            let line = format!("{out}: it would replace what it is made from\n");
            expect_error(&folder, &with(&["convert", "a.vcp", "-o", out], to), 2, &line);
            expect_error(&folder, &with(&["convert", "link.vcp", "-o", out], to), 2, &line);
            let from_standard = command()
                .args(with(&["convert", "-", "-o", out], to))
                .current_dir(&folder)
                .stdin(File::open(folder.join("a.vcp")).unwrap())
                .output()
                .expect("the command ends");
            assert_eq!(from_standard.status.code(), Some(2));
            assert_eq!(String::from_utf8_lossy(&from_standard.stderr), line);
        }
    }
    // Nor is it written on where standard output is FILE, by whichever of its names.
    fs::hard_link(folder.join("a.vcp"), folder.join("b.vcp")).unwrap();
    for out in ["a.vcp", "b.vcp", "link.vcp"] {
        for (call, input) in [(&["convert", "a.vcp"][..], None), (&["convert", "-", "-o", "-"], Some("a.vcp"))] {
            let ended = command()
                .args(call)
                .current_dir(&folder)
                .stdin(input.map_or(Stdio::null(), |name| File::open(folder.join(name)).unwrap().into()))
                .stdout(File::options().append(true).open(folder.join(out)).unwrap())
                .output()
                .expect("the command ends");
            let line = "standard output: it would replace what it is made from\n";
            assert_eq!(String::from_utf8_lossy(&ended.stderr), line, "{out}");
            assert_eq!(ended.status.code(), Some(2));
        }
    }
    let emptied = command()
        .args(["convert", "c.vcp"])
        .current_dir(&folder)
        .stdout(File::create(folder.join("c.vcp")).unwrap())
        .output()
        .expect("the command ends");
    assert_eq!(String::from_utf8_lossy(&emptied.stderr), "standard output: it would replace what it is made from\n");
    fs::remove_file(folder.join("c.vcp")).unwrap();
    assert_eq!(fs::read(folder.join("a.vcp")).unwrap(), EXAMPLE);
    expect(&folder, &CONVERT, "");
    assert_eq!(both(&folder), [&EXAMPLE[..], &EXAMPLE_VERSION_2]);
    assert_eq!(names(&folder), ["a.vcp", "b.vcp", "link.vcp"]);
}

/// OUT is whole or not there: what cannot be written leaves nothing behind.
#[test]
fn files_that_cannot_be_written() {
    let folder = folder("convert_unwritten");
    fs::write(folder.join("a.vcp"), EXAMPLE).unwrap();
    fs::create_dir(folder.join("roads")).unwrap();
    for (out, line) in [
        ("no/b.vcp", "No such file or directory"),
        ("roads", "Is a directory"),
        ("", "No such file or directory"),
        ("/dev/full", "No space left on device"),
    ] {
        expect_error(&folder, &["convert", "a.vcp", "-o", out], 2, &format!("{out}: {line}\n"));
    }
    assert_eq!(names(&folder), ["a.vcp", "roads"]);
}

/// Versions that are none, said before anything is read.
#[test]
fn other_versions() {
    let folder = folder("convert_wrong");
    for (version, reason) in [
        ("0", "\"0\" is neither 1 nor 2"),
        ("3", "\"3\" is neither 1 nor 2"),
        ("257", "\"257\" is neither 1 nor 2"),
        ("65537", "\"65537\" is neither 1 nor 2"),
        ("4294967297", "\"4294967297\" is neither 1 nor 2"),
        (" 1", "\" 1\" is no number"),
        ("v1", "\"v1\" is no number"),
        ("-1", "\"-1\" is negative"),
        ("1.0", "\"1.0\" is not whole"),
        ("one", "\"one\" is no number"),
        ("", "the number is missing"),
    ] {
        expect_wrong(&folder, &["convert", "none.vcp", "--to", version], &format!("--to: {reason}"));
    }
    expect_wrong(&folder, &["convert", "none.vcp", "--to"], "--to needs VERSION");
    expect_wrong(&folder, &["convert", "none.vcp", "--to=1", "--to=1"], "--to stands twice");
    assert_eq!(names(&folder), [""; 0]);
}
