//! Runs the command in a shell's way: with arguments, a folder and a standard input.

#![allow(dead_code)] // each test file uses a part

use std::fs;
use std::io::Write;
use std::path::{Path, PathBuf};
use std::process::{Command, Stdio};

// Why a file, a road or a list is refused, in the command's words.
pub const SHORT_FILE: &str = "the file has fewer than 16 bytes, or fewer than 18 in version 2";
pub const NO_VERSION: &str = "the version is neither 1 nor 2";
pub const WRONG_TOTAL: &str = "the file's total length is not 16 bytes and 6 for each curve, or 18 and 8 in version 2";
pub const LONG_ROAD: &str =
    "the road's length is not 1 to 8,000 m, or to 100,000 m in version 2; the listing, the preview and \
                             the van take no road over 8,000 m";
pub const TOO_LONG: &str = "the road is over 8,000 m, which is more than a file of version 1 holds";
pub const LONG_LIST: &str = "the list of heights or marks is empty or longer than 100,001";

/// How the command ended.
#[derive(Debug, PartialEq)]
pub struct Ended {
    pub output: String,
    pub errors: String,
    pub status: i32,
}

pub fn command() -> Command {
    Command::new(env!("CARGO_BIN_EXE_vcp"))
}

/// The repository's folder.
pub fn root() -> PathBuf {
    Path::new(env!("CARGO_MANIFEST_DIR")).join("../..")
}

/// An empty folder of a test's own.
pub fn folder(name: &str) -> PathBuf {
    let folder = Path::new(env!("CARGO_TARGET_TMPDIR")).join(name);
    let _ = fs::remove_dir_all(&folder);
    fs::create_dir_all(&folder).expect("a folder can be made");
    folder
}

/// The names of the files in a folder, hidden ones too.
pub fn names(folder: &Path) -> Vec<String> {
    let names = fs::read_dir(folder).expect("it is a folder").map(|entry| entry.expect("an entry").file_name());
    let mut names: Vec<String> = names.map(|name| name.into_string().expect("a name is text")).collect();
    names.sort_unstable();
    names
}

/// Runs the command in a folder, with these bytes on its standard input, and answers the bytes of its output too.
pub fn run_with(folder: &Path, arguments: &[&str], input: &[u8]) -> (Ended, Vec<u8>) {
    let mut running = command()
        .args(arguments)
        .current_dir(folder)
        .stdin(Stdio::piped())
        .stdout(Stdio::piped())
        .stderr(Stdio::piped())
        .spawn()
        .expect("the command runs");
    // Input that is longer than needed may be left unread in part.
    let mut pipe = running.stdin.take().expect("standard input is piped");
    let input = input.to_vec();
    let writer = std::thread::spawn(move || drop(pipe.write_all(&input)));
    let ended = running.wait_with_output().expect("the command ends");
    writer.join().expect("the input is written");
    let output = String::from_utf8_lossy(&ended.stdout).into_owned();
    let errors = String::from_utf8(ended.stderr).expect("errors are text");
    (Ended { output, errors, status: ended.status.code().expect("it ends by itself") }, ended.stdout)
}

/// Runs the command in a folder.
pub fn run(folder: &Path, arguments: &[&str]) -> Ended {
    run_with(folder, arguments, b"").0
}

/// It answers this.
pub fn expect(folder: &Path, arguments: &[&str], output: &str) {
    let expected = Ended { output: output.to_string(), errors: String::new(), status: 0 };
    assert_eq!(run(folder, arguments), expected, "{arguments:?}");
}

/// It answers nothing, and ends with this status and these lines.
pub fn expect_error(folder: &Path, arguments: &[&str], status: i32, errors: &str) {
    let expected = Ended { output: String::new(), errors: errors.to_string(), status };
    assert_eq!(run(folder, arguments), expected, "{arguments:?}");
}

/// It is used wrongly: it answers nothing and says why, and how it is called.
pub fn expect_wrong(folder: &Path, arguments: &[&str], reason: &str) {
    let ended = run(folder, arguments);
    let lines: Vec<&str> = ended.errors.lines().collect();
    let name = arguments[0];
    assert_eq!((ended.status, ended.output.as_str()), (2, ""), "{arguments:?}");
    assert_eq!(lines.len(), 2, "{arguments:?}: {lines:?}");
    assert_eq!(lines[0], format!("vcp {name}: {reason}"), "{arguments:?}");
    assert!(lines[1].starts_with(&format!("usage: vcp {name} ")), "{arguments:?}: {lines:?}");
}

/// A share in percent with one decimal, to the nearest tenth, halves up.
pub fn share(lacking: u32, judged: u32) -> String {
    if judged == 0 {
        return "-".to_string();
    }
    let tenths = (0..=1_000).rev().find(|tenths| (2 * tenths - 1) * judged as i64 <= 2_000 * i64::from(lacking));
    let tenths = tenths.expect("a share is not negative");
    format!("{}.{} %", tenths / 10, tenths % 10)
}
