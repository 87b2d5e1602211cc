//! A road as a text that is easy to read and to write, turned into a road file and back.
//!
//! ```text
//! # A crest, and a break in grade further on
//! speed 90 km/h
//! purpose 1
//! length 1500 m
//! start height 102.5 m
//! first grade 4.00 %
//! # PVI, length, grade out
//! curve 480 m, 60 m, -2.00 %
//! curve 900 m, 0 m, -2.50 %
//! ```
//!
//! - Each line holds one item; blank lines, all that follows a `#` and a byte-order mark in front are passed over.
//! - Speed, purpose, length, start height and first grade stand once each, in any order.
//! - A line `version 2` asks for a road file of version 2, which may have a longer road; `version 1`, and a text without such a
//!   line, ask for one of version 1. It may stand anywhere, once.
//! - Curves are those of the road in their order, each with its PVI, its length and its grade out between commas.
//! - A number is decimal digits, after a minus if it is negative; a space and its unit follow, as above.
//! - The start height may have up to 4 decimals after a point, and a grade up to 2. All other numbers are whole.
//!
//! The purposes 1 to 5 are the decisions A to E. Which numbers a road may have, and where its curves may lie, is no matter
//! of the text: the proved reader of road files judges the file that is made, and what it refuses is reported with the line
//! at fault.

#![forbid(unsafe_code)]
#![deny(missing_docs)]

use std::fmt;

use exports::{Refusal, ENOUGH_BYTES};

use crate::field::{Field, Layout, CURVE, FIRST_VERSION, HEAD, LAYOUTS, VERSION};
use crate::lines::{read_lines, Road};

pub mod decimal;
mod field;
mod lines;

/// What is wrong with a line of a text.
#[derive(Clone, Debug, PartialEq, Eq)]
pub struct Fault {
    /// The number of the line, from 1 on. Where a line is missing it is that of the last line.
    pub line: usize,
    /// What is wrong, in words; a refusal of the road with its number.
    pub reason: String,
    /// Whether it is the proved reader that refuses the road, and not the text that cannot be read.
    pub refused: bool,
}

impl fmt::Display for Fault {
    fn fmt(&self, formatter: &mut fmt::Formatter) -> fmt::Result {
        write!(formatter, "{}: {}", self.line, self.reason)
    }
}

/// The road file of a text.
///
/// # Errors
/// All lines that cannot be read, in order; or, where all can be, the one line by which the proved reader refuses the road.
///
/// ```
/// let text = "speed 20 km/h\npurpose 1\nlength 300 m\nstart height 0 m\nfirst grade 15 %\ncurve 100 m, 2 m, -15 %\n";
/// let file = roadtext::road_file(text).unwrap();
/// assert_eq!(file, b"VCP\x01\0\x14\x01\x2C\x01\0\0\0\0\xDC\x05\x01\x64\0\x02\0\x24\xFA");
///
/// let faults = roadtext::road_file(&text.replace("100 m, 2 m", "100 m, 3 m")).unwrap_err();
/// assert_eq!(faults[0].to_string(), "6: refused 11: a curve's length is odd or over 2,000 m");
///
/// let faults = roadtext::road_file(&text.replace("100 m, 2 m", "100 m, 0 m")).unwrap_err();
/// let reason = "the grades of a curve of length 0 differ by more than 50 hundredths of a percent (0.5 %)";
/// assert_eq!(faults[0].to_string(), format!("6: refused 25: {reason}"));
/// ```
pub fn road_file(text: &str) -> Result<Vec<u8>, Vec<Fault>> {
    let road = read_lines(text)?;
    road.judged_file().map_err(|fault| vec![fault])
}

/// The text of a road file. [`road_file`] turns it into the same bytes again. The version is said where it is not 1.
///
/// # Errors
/// The proved reader's refusal of the file.
///
/// ```
/// let text = roadtext::road_text(b"VCP\x01\0\x50\x01\xE8\x03\x39\x30\0\0\xFB\xFF\0").unwrap();
/// assert_eq!(text, "speed 80 km/h\npurpose 1\nlength 1000 m\nstart height 1.2345 m\nfirst grade -0.05 %\n");
///
/// let longer = roadtext::road_text(b"VCP\x02\0\x50\x01\xA0\x86\x01\0\x39\x30\0\0\xFB\xFF\0").unwrap();
/// assert_eq!(longer, format!("version 2\n{}", text.replace("1000 m", "100000 m")));
///
/// assert_eq!(roadtext::road_text(b"VCP").unwrap_err().number(), 1);
/// ```
pub fn road_text(file: &[u8]) -> Result<String, Refusal> {
    let road = road_numbers(file)?;
    let mut text = String::new();
    // A text that names no version is of the first one.
    let [version, ..] = road.head;
    let unsaid = usize::from(version == FIRST_VERSION);
    for (field, number) in HEAD.iter().zip(road.head).skip(unsaid) {
        text += &format!("{} {}\n", field.name, field.text(number));
    }
    if !road.curves.is_empty() {
        text += "# PVI, length, grade out\n";
    }
    for curve in road.curves {
        let numbers = [0, 1, 2].map(|place| CURVE[place].text(curve[place]));
        text += &format!("curve {}\n", numbers.join(", "));
    }
    Ok(text)
}

/// The numbers of a road, in the file's units and in its order.
#[derive(Clone, Debug, PartialEq, Eq)]
pub struct Numbers {
    /// Version, speed, purpose, length, start height and first grade.
    pub head: [i64; 6],
    /// The PVI, the length and the grade out of each curve.
    pub curves: Vec<[i64; 3]>,
}

/// The numbers of a road file.
///
/// # Errors
/// The proved reader's refusal of the file.
pub fn road_numbers(file: &[u8]) -> Result<Numbers, Refusal> {
    accept(file)?;
    let behind_letters = &file[LETTERS.len()..];
    // The version stands there in every layout.
    let ([version], _) = numbers(&[VERSION], Layout::ROOMIEST, behind_letters);
    let layout = Layout::of(version);
    let (head, rest) = numbers(&HEAD, layout, behind_letters);
    let mut curves = Vec::new();
    // Behind the byte that counts them there are the curves and nothing else.
    let mut rest = &rest[1..];
    while !rest.is_empty() {
        let (curve, behind) = numbers(&CURVE, layout, rest);
        curves.push(curve);
        rest = behind;
    }
    Ok(Numbers { head, curves })
}

/// What the proved writer writes of a road file that the proved reader accepts, which are the same bytes.
fn accept(file: &[u8]) -> Result<Vec<u8>, Refusal> {
    let mut written = [0; ENOUGH_BYTES];
    let length = exports::rewrite(file, &mut written)?;
    Ok(written[..length as usize].to_vec())
}

/// What some programs put at the front of a text.
pub const BYTE_ORDER_MARK: char = '\u{feff}';

/// The letters that a road file begins with.
const LETTERS: &[u8] = b"VCP";

/// The numbers that these bytes begin with, and the bytes behind them.
fn numbers<'a, const MANY: usize>(
    fields: &[Field; MANY],
    layout: Layout,
    mut bytes: &'a [u8],
) -> ([i64; MANY], &'a [u8]) {
    let numbers = fields.map(|field| {
        let (own, behind) = bytes.split_at(field.bytes(layout));
        bytes = behind;
        field.number(own, layout)
    });
    (numbers, bytes)
}

impl Road {
    /// The road file with the first so many curves. More than a byte can count are counted as 255, which is refused.
    fn file(&self, curves: usize) -> Vec<u8> {
        let mut file = LETTERS.to_vec();
        for (field, number) in HEAD.iter().zip(&self.head) {
            file.extend(field.file_bytes(number.item, self.layout));
        }
        file.push(u8::try_from(curves).unwrap_or(u8::MAX));
        for curve in &self.curves[..curves] {
            for (field, number) in CURVE.iter().zip(curve.item) {
                file.extend(field.file_bytes(number, self.layout));
            }
        }
        file
    }

    /// The road file, if the proved reader accepts it. The version is judged first, then the number of curves, then the
    /// other numbers before the curves, then curve by curve. So the last of the fewest first curves that are refused by the
    /// same number is at fault; or, where that is no curve at all, a number before them.
    fn judged_file(&self) -> Result<Vec<u8>, Fault> {
        let all = self.curves.len();
        let refusal = match accept(&self.file(all)) {
            Ok(file) => return Ok(file),
            Err(refusal) => refusal,
        };
        let curves = (0..all).find(|&curves| accept(&self.file(curves)) == Err(refusal)).unwrap_or(all);
        let line = match (curves, refusal.number()) {
            (0, 3) => self.head[0].line,
            (0, 6) => self.head[1].line,
            (0, 7) => self.head[2].line,
            (0, 8) => self.head[3].line,
            (0, 9) => self.head[4].line,
            (0, _) => self.head[5].line,
            (_, _) => self.curves[curves - 1].line,
        };
        let hint =
            self.taken_in().map_or(String::new(), |version| format!("; with the line 'version {version}' it is taken"));
        Err(Fault { line, reason: format!("{refusal}{hint}"), refused: true })
    }

    /// The other version whose file the proved reader accepts for this road, where there is one. One whose own version is none has
    /// its fault there.
    fn taken_in(&self) -> Option<i64> {
        let own = self.head[0].item;
        let taken = |version: &i64| {
            let mut other = self.clone();
            (other.layout, other.head[0].item) = (Layout::of(*version), *version);
            accept(&other.file(self.curves.len())).is_ok()
        };
        let versions = LAYOUTS.map(|layout| layout.version);
        versions.contains(&own).then(|| versions.into_iter().find(taken)).flatten()
    }
}
