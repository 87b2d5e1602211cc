//! Why a command ends without an answer.

use std::io;
use std::path::Path;

use exports::Refusal;

/// What goes wrong, in lines for the user.
#[derive(Debug)]
pub enum Trouble {
    /// A proved function refused.
    Refused(String),
    /// The command is used wrongly, or a file fails.
    Failed(Vec<String>),
    /// Standard output fails.
    Unwritten(String),
    /// Nobody reads the output any more.
    Unread,
}

/// The status of a command that answered.
pub const ANSWERED: u8 = 0;

impl Trouble {
    /// The command's status. Whoever closed the pipe has had what was wanted.
    pub fn status(&self) -> u8 {
        match self {
            Trouble::Unread => ANSWERED,
            Trouble::Refused(_) => 1,
            Trouble::Failed(_) | Trouble::Unwritten(_) => 2,
        }
    }

    /// The lines for standard error.
    pub fn lines(&self) -> &[String] {
        match self {
            Trouble::Refused(line) | Trouble::Unwritten(line) => std::slice::from_ref(line),
            Trouble::Failed(lines) => lines,
            Trouble::Unread => &[],
        }
    }

    /// What fails, in one line.
    pub fn failed(line: impl Into<String>) -> Trouble {
        Trouble::Failed(vec![line.into()])
    }

    /// What fails with a file. Nobody reads a named pipe that is closed.
    pub fn with_file(path: &Path, error: &io::Error) -> Trouble {
        match error.kind() {
            io::ErrorKind::BrokenPipe => Trouble::Unread,
            _ => Trouble::failed(format!("{}: {}", shown(path), words(error))),
        }
    }

    /// What fails with standard output.
    pub fn with_output(error: &io::Error) -> Trouble {
        match error.kind() {
            io::ErrorKind::BrokenPipe => Trouble::Unread,
            _ => Trouble::Unwritten(format!("standard output: {}", words(error))),
        }
    }

    /// What is refused, of a file or by a command of this name.
    pub fn refused(name: impl AsRef<Path>) -> impl Fn(Refusal) -> Trouble {
        move |refusal| Trouble::Refused(format!("{}: {refusal}", shown(name.as_ref())))
    }
}

/// Goes on where nobody reads the output any more, since there is something else that is wanted.
pub fn even_unread(written: Result<(), Trouble>) -> Result<(), Trouble> {
    match written {
        Err(Trouble::Unread) => Ok(()),
        written => written,
    }
}

/// A file's name on one line, whatever it holds.
pub fn shown(path: &Path) -> String {
    let name = path.to_string_lossy();
    let letters = name.chars().map(|letter| match letter {
        _ if letter.is_control() => letter.escape_default().to_string(),
        _ => letter.to_string(),
    });
    letters.collect()
}

/// What a system's error says, without its number.
fn words(error: &io::Error) -> String {
    let text = error.to_string();
    text.split(" (os error").next().unwrap_or_default().to_string()
}
