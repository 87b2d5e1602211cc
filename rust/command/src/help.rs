//! What the command says of itself.

use std::ffi::OsString;

use crate::commands::{Command, COMMANDS};
use crate::trouble::Trouble;

pub const VERSION: &str = concat!("vcp ", env!("CARGO_PKG_VERSION"), "\n");

/// Whether help is asked for among the arguments of a command.
pub fn is_asked(arguments: &[OsString]) -> bool {
    let mut options = arguments.iter().take_while(|argument| *argument != "--");
    options.any(|argument| argument == "--help" || argument == "-h")
}

/// Lines of two columns.
fn rows(rows: impl Iterator<Item = (String, &'static str)>) -> String {
    rows.map(|(left, right)| format!("  {left:<23} {right}\n")).collect()
}

/// The help for all.
pub fn overview() -> String {
    let commands = rows(COMMANDS.iter().map(|command| (command.call(), command.prints)));
    format!(
        "\
vcp: where a driver on a two-lane country road cannot see far enough to stop, to
decide or to pass.

usage: vcp COMMAND ...
       vcp COMMAND --help
       vcp --version

{commands}
FILE is a road file of version 1 or 2; 'vcp road' makes one. The name - is
standard input, or standard output behind -o. Stations, lengths and heights are
in metres, grades in percent, speeds in km/h. The value of a long option may
also follow an '=', and that of -o its letter. What follows -- is no option.

Every answer is that of a proved function. A refusal is one line on standard
error: the file, 'refused', the number, the reason. Of several files the others
are answered all the same.

Status: 0 answered; 1 refused; 2 used wrongly, or a file cannot be read or
written.
"
    )
}

/// The help for a command.
pub fn of(command: &Command) -> String {
    let options = rows(command.options.iter().map(|own| (own.call(), own.meaning)));
    let options = if options.is_empty() { options } else { format!("\n{options}") };
    let usage = command.usage();
    format!("usage: {usage}\nPrints {}.\n\n{}\n{options}", command.prints, command.details)
}

/// No command is named.
pub fn no_command() -> Trouble {
    wrong("a command is missing")
}

/// There is no such command.
pub fn unknown(word: &str) -> Trouble {
    wrong(&format!("there is no command {word:?}"))
}

fn wrong(reason: &str) -> Trouble {
    let names = COMMANDS.iter().map(|command| command.name).collect::<Vec<_>>().join(", ");
    Trouble::Failed(vec![format!("vcp: {reason}"), format!("commands: {names}; see vcp --help")])
}
