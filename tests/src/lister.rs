//! The lister, which `tools/build lister` builds.

use std::io::Write;
use std::path::PathBuf;
use std::process::{Command, Stdio};

use crate::pages::root;

/// Where it stands.
pub fn program() -> PathBuf {
    root().join("target/bin/lister")
}

/// What it writes to standard output for a file on its standard input.
pub fn output(file: &[u8]) -> String {
    let program = program();
    let mut running = Command::new(&program)
        .stdin(Stdio::piped())
        .stdout(Stdio::piped())
        .spawn()
        .unwrap_or_else(|error| panic!("{} does not run: {error}", program.display()));
    // A file longer than any road's may be left unread in part.
    let _ = running.stdin.take().expect("standard input is piped").write_all(file);
    let output = running.wait_with_output().expect("it ends");
    assert!(output.status.success(), "it failed on {file:02X?}");
    String::from_utf8(output.stdout).expect("it writes text")
}
