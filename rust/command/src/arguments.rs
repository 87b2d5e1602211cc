//! What stands behind a command: options and operands.

use std::ffi::{OsStr, OsString};
use std::os::unix::ffi::OsStrExt;
use std::path::Path;
use std::slice;

use roadtext::decimal;

use crate::commands::Command;
use crate::input;
use crate::trouble::{shown, Trouble};

/// An option: its name, what its value is called where it has one, what it means, and whether it must be there.
pub struct Choice {
    pub name: &'static str,
    pub value: Option<&'static str>,
    pub meaning: &'static str,
    pub needed: bool,
}

impl Choice {
    /// Its name, with its value's where it has one.
    pub fn call(&self) -> String {
        self.value.map_or(self.name.to_string(), |value| format!("{} {value}", self.name))
    }
}

/// The options and operands that a command was given.
pub struct Given {
    command: &'static Command,
    values: Vec<(&'static str, Option<OsString>)>,
    operands: Vec<OsString>,
}

/// The unit that a number is written in, by its decimals.
#[derive(Clone, Copy)]
pub struct Unit {
    decimals: usize,
}

/// Whole metres or km/h.
pub const WHOLE: Unit = Unit { decimals: 0 };

/// Metres of height, counted in h-units.
pub const HEIGHT: Unit = Unit { decimals: 4 };

/// Percent of grade, counted in hundredths.
pub const GRADE: Unit = Unit { decimals: 2 };

/// Seconds or km/h of a passing manoeuvre, counted in tenths.
pub const TENTHS: Unit = Unit { decimals: 1 };

/// km/h per second, counted in hundredths.
pub const ACCELERATION: Unit = Unit { decimals: 2 };

impl Unit {
    /// Reads a number that is not negative. A larger one than 32 bits hold is taken for the largest, which every proved
    /// function refuses as well.
    pub fn read(self, text: &str) -> Result<u32, String> {
        let number = decimal::read(text, self.decimals)?;
        if number < 0 {
            return Err(format!("{text:?} is negative"));
        }
        Ok(u32::try_from(number).unwrap_or(u32::MAX))
    }

    /// Reads a number that may be negative. One that 32 bits do not hold is taken for the nearest that they do, which every
    /// proved function refuses as well.
    pub fn read_signed(self, text: &str) -> Result<i32, String> {
        let number = decimal::read(text, self.decimals)?;
        Ok(number.clamp(i32::MIN.into(), i32::MAX.into()) as i32)
    }
}

/// An option's name, and the value that stands in the same argument: behind `=`, or right behind one letter.
fn parts(argument: &OsStr) -> (&OsStr, Option<&OsStr>) {
    let bytes = argument.as_bytes();
    let (name, value) = match bytes.strip_prefix(b"--") {
        Some(_) => match bytes.iter().position(|&byte| byte == b'=') {
            Some(end) => (&bytes[..end], Some(&bytes[end + 1..])),
            None => (bytes, None),
        },
        None => (&bytes[..2], Some(&bytes[2..]).filter(|value| !value.is_empty())),
    };
    (OsStr::from_bytes(name), value.map(OsStr::from_bytes))
}

/// Whether an argument is an option. A dash alone is standard input.
fn is_option(argument: &OsStr) -> bool {
    argument.as_bytes().starts_with(b"-") && argument != "-"
}

impl Given {
    /// Parts the arguments of a command into options and operands.
    pub fn read(command: &'static Command, arguments: &[OsString]) -> Result<Given, Trouble> {
        let mut given = Given { command, values: Vec::new(), operands: Vec::new() };
        let mut arguments = arguments.iter();
        while let Some(argument) = arguments.next() {
            if argument == "--" {
                given.operands.extend(arguments.by_ref().cloned());
            } else if is_option(argument) {
                given.take(argument, &mut arguments)?;
            } else {
                given.operands.push(argument.clone());
            }
        }
        given.count_operands()?;
        given.count_options()?;
        Ok(given)
    }

    /// Takes an option. A value that it needs may be the next argument.
    fn take(&mut self, argument: &OsStr, others: &mut slice::Iter<OsString>) -> Result<(), Trouble> {
        let (name, value) = parts(argument);
        let Some(choice) = self.command.options.iter().find(|choice| name == choice.name) else {
            return Err(self.wrong(format!("there is no option {}", shown(Path::new(argument)))));
        };
        if self.is_there(choice.name) {
            return Err(self.wrong(format!("{} stands twice", choice.name)));
        }
        let next = || others.next().map(OsString::as_os_str).filter(|next| !next.as_bytes().starts_with(b"--"));
        let value = match choice.value {
            Some(wanted) => {
                let needs = || self.wrong(format!("{} needs {wanted}", choice.name));
                Some(value.or_else(next).ok_or_else(needs)?.to_os_string())
            }
            None if value.is_some() => return Err(self.wrong(format!("{} takes no value", choice.name))),
            None => None,
        };
        self.values.push((choice.name, value));
        Ok(())
    }

    fn count_operands(&self) -> Result<(), Trouble> {
        let wanted = self.command.operands;
        if let Some(missing) = wanted.names.get(self.operands.len()) {
            return Err(self.wrong(format!("{missing} is missing")));
        }
        match self.operands.get(wanted.names.len()) {
            Some(more) if !wanted.more => Err(self.wrong(format!("{more:?} is one argument too many"))),
            _ => Ok(()),
        }
    }

    fn count_options(&self) -> Result<(), Trouble> {
        let mut missing = self.command.options.iter().filter(|choice| choice.needed && !self.is_there(choice.name));
        missing.next().map_or(Ok(()), |choice| Err(self.wrong(format!("{} is missing", choice.name))))
    }

    fn value(&self, name: &str) -> Option<&OsStr> {
        self.values.iter().find(|(own, _)| *own == name).and_then(|(_, value)| value.as_deref())
    }

    /// Whether an option is there.
    pub fn is_there(&self, name: &str) -> bool {
        self.values.iter().any(|(own, _)| *own == name)
    }

    /// The value of an option as it is read by a function.
    pub fn option<T>(&self, name: &str, read: impl Fn(&str) -> Result<T, String>) -> Result<Option<T>, Trouble> {
        let read_value = |value: &OsStr| {
            let text = value.to_str().ok_or_else(|| format!("{value:?} is no text"))?;
            read(text)
        };
        let value = self.value(name).map(read_value).transpose();
        value.map_err(|reason| self.wrong(format!("{name}: {reason}")))
    }

    /// The value of an option as a number in a unit; where it is not given, another number.
    pub fn number(&self, name: &str, unit: Unit, other: u32) -> Result<u32, Trouble> {
        Ok(self.option(name, |text| unit.read(text))?.unwrap_or(other))
    }

    /// The value of an option that must be there, as it is read by a function.
    pub fn needed<T>(&self, name: &str, read: impl Fn(&str) -> Result<T, String>) -> Result<T, Trouble> {
        self.option(name, read)?.ok_or_else(|| self.wrong(format!("{name} is missing")))
    }

    /// The operand at a place, as it is read by a function.
    pub fn operand<T>(&self, place: usize, read: impl Fn(&str) -> Result<T, String>) -> Result<T, Trouble> {
        let operand = &self.operands[place];
        let text = operand.to_str().ok_or_else(|| format!("{operand:?} is no text"));
        text.and_then(read).map_err(|reason| self.wrong(format!("{}: {reason}", self.command.operands.names[place])))
    }

    /// The file that the answer is written to; none where it is standard output.
    pub fn output_file(&self) -> Option<&Path> {
        self.value("-o").map(Path::new).filter(|path| !input::is_standard(path))
    }

    /// The operands as files.
    pub fn files(&self) -> impl Iterator<Item = &Path> {
        self.operands.iter().map(Path::new)
    }

    /// The first operand as a file.
    pub fn file(&self) -> &Path {
        Path::new(&self.operands[0])
    }

    /// The command is used wrongly.
    pub fn wrong(&self, reason: impl AsRef<str>) -> Trouble {
        let line = format!("vcp {}: {}", self.command.name, reason.as_ref());
        Trouble::Failed(vec![line, format!("usage: {}", self.command.usage())])
    }
}
