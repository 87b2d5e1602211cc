//! The sheet of level distances: as text, and as a page to print.

use exports::{Refusal, GREATEST_SPEED, LEAST_SPEED};
use picture::{LevelPage, LevelRow};

use crate::answers::{write_answer, LEVEL};
use crate::arguments::Given;
use crate::columns::{lined_up, Row};
use crate::output::Output;
use crate::purpose;
use crate::trouble::Trouble;

/// What stands above the speeds.
const SPEEDS: &str = "km/h";

/// What the page says of its numbers.
const NOTES: [&str; 11] = [
    "stop: to stop for an object",
    "Decisions by AASHTO:",
    "A: to stop on a rural road",
    "B: to stop on an urban road",
    "C, D, E: to change speed, path or",
    "direction; C on a rural road, D",
    "on a suburban, E on an urban one",
    "C, D and E hold on every grade;",
    "stop, A, B can be longer downhill:",
    "vcp distance 80 B --grade -6.00",
    "for 6 % downhill, 6.00 for uphill",
];

/// The distances of a speed on a level road, for each purpose.
fn row(speed: u32) -> Result<LevelRow, Refusal> {
    let mut metres = [0; purpose::NAMES.len()];
    for (purpose, metres) in (0..).zip(&mut metres) {
        *metres = vcp::required_distance(speed, purpose, LEVEL)?;
    }
    Ok(LevelRow { speed, metres })
}

/// The rows as text, speeds down and purposes across.
fn text(rows: &[LevelRow]) -> String {
    let heads = [SPEEDS].into_iter().chain(purpose::NAMES).map(str::to_string).collect();
    let numbers = |&LevelRow { speed, metres }: &LevelRow| -> Row {
        // The first column would stand to the left.
        let speed = format!("{speed:>width$}", width = SPEEDS.len());
        [speed].into_iter().chain(metres.map(|metres| metres.to_string())).collect()
    };
    let lines: Vec<Row> = [heads].into_iter().chain(rows.iter().map(numbers)).collect();
    format!("required distances in m on a level road\n\n{}", lined_up(&lines))
}

/// `vcp sheet`.
pub fn sheet(given: &Given, output: &mut Output) -> Result<u8, Trouble> {
    let rows: Result<Vec<LevelRow>, Refusal> = (LEAST_SPEED..=GREATEST_SPEED).map(row).collect();
    let rows = rows.map_err(Trouble::refused("vcp sheet"))?;
    let sheet = match given.is_there("--svg") {
        true => picture::level_page(&LevelPage { purposes: purpose::SHORT, rows: &rows, notes: &NOTES }),
        false => text(&rows),
    };
    write_answer(given, output, sheet.as_bytes())
}
