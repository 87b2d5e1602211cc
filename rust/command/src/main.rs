//! `vcp`: where a driver cannot see far enough, from a shell. It reads arguments and files, asks the proved functions, and
//! prints what they answer; no rule of the road stands here.

#![forbid(unsafe_code)]

mod answers;
mod arguments;
mod columns;
mod commands;
mod drawing;
mod engines;
mod help;
mod input;
mod judgement;
mod output;
mod preview;
mod purpose;
mod report;
mod sheet;
mod survey;
mod tables;
mod trouble;

use std::env;
use std::ffi::OsString;
use std::io::{self, Write};
use std::process::ExitCode;

use crate::arguments::Given;
use crate::commands::COMMANDS;
use crate::output::Output;
use crate::trouble::{Trouble, ANSWERED};

/// Lines on standard error. Where they cannot be written, the status still tells.
fn say(lines: &[String]) {
    let mut errors = io::stderr().lock();
    for line in lines {
        let _ = writeln!(errors, "{line}");
    }
}

/// Says what went wrong.
fn complain(trouble: &Trouble) {
    say(trouble.lines());
}

/// The status of what ended, with a complaint where it went wrong.
fn status_of(ended: Result<u8, Trouble>) -> u8 {
    ended.unwrap_or_else(|trouble| {
        complain(&trouble);
        trouble.status()
    })
}

/// Does what the arguments say, and answers the status.
fn run(arguments: &[OsString], output: &mut Output) -> Result<u8, Trouble> {
    let (first, others) = arguments.split_first().ok_or_else(help::no_command)?;
    let word = first.to_string_lossy();
    if let Some(command) = COMMANDS.iter().find(|command| command.name == word) {
        if help::is_asked(others) {
            return output.write(help::of(command).as_bytes()).map(|()| ANSWERED);
        }
        return (command.run)(&Given::read(command, others)?, output);
    }
    match word.as_ref() {
        "--help" | "-h" => output.write(help::overview().as_bytes()).map(|()| ANSWERED),
        "--version" | "-V" => output.write(help::VERSION.as_bytes()).map(|()| ANSWERED),
        _ => Err(help::unknown(&word)),
    }
}

fn main() -> ExitCode {
    let arguments: Vec<OsString> = env::args_os().skip(1).collect();
    let mut output = Output::standard();
    let status = status_of(run(&arguments, &mut output));
    let written = status_of(output.flush().map(|()| ANSWERED));
    ExitCode::from(status.max(written))
}
