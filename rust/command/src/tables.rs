//! Tables of one row a station, as CSV.

use std::fmt::Display;

use exports::{Look, EYE_HEIGHT, GREATEST_FARTHEST, LONG_STATIONS, OBJECT_HEIGHT};
use roadtext::decimal;

use crate::answers::{direction, file_to_write, write_answer};
use crate::arguments::{Given, HEIGHT, WHOLE};
use crate::engines::{self, Seen, Stations};
use crate::output::Output;
use crate::trouble::{even_unread, shown, Trouble, ANSWERED};
use crate::{input, say};

/// The header of heights.
pub const HEIGHTS_HEADER: &str = "station_m,height_m";

/// The header of sights.
const SIGHTS_HEADER: &str = "station_m,sight_m";

/// The header of the sights of both engines.
const BOTH_HEADER: &str = "station_m,sight_m,slow_sight_m";

/// The heights of a road file.
pub fn heights_of(file: &[u8]) -> Result<Vec<i32>, exports::Refusal> {
    let mut heights = vec![0; LONG_STATIONS];
    let stations = exports::file_heights(file, &mut heights)?;
    heights.truncate(stations as usize);
    Ok(heights)
}

/// The stations that are asked for: from one to another in steps.
struct Stretch {
    from: u32,
    to: u32,
    every: usize,
}

impl Stretch {
    /// Reads it from the options. What they leave open is all of the road.
    fn read(given: &Given) -> Result<Stretch, Trouble> {
        let from = given.number("--from", WHOLE, 0)?;
        let to = given.number("--to", WHOLE, u32::MAX)?;
        let every = given.number("--every", WHOLE, 1)? as usize;
        if to < from {
            return Err(given.wrong("--from is beyond --to"));
        }
        if every == 0 {
            return Err(given.wrong("--every 0 is no step"));
        }
        Ok(Stretch { from, to, every })
    }

    /// Its stations, of a road with a last one.
    fn stations(&self, given: &Given, last: usize) -> Result<Stations, Trouble> {
        let Stretch { from, to, every } = *self;
        let beyond = |name: &str| given.wrong(format!("{name}: the last station is {last}"));
        if from as usize > last {
            return Err(beyond("--from"));
        }
        if to as usize > last && given.is_there("--to") {
            return Err(beyond("--to"));
        }
        Ok((from as usize..=last.min(to as usize)).step_by(every))
    }
}

/// Writes a header and a row for each station.
fn write_table(
    given: &Given,
    output: &mut Output,
    header: &str,
    rows: impl Iterator<Item = (usize, impl Display)>,
) -> Result<u8, Trouble> {
    let mut table = format!("{header}\n");
    for (station, value) in rows {
        table += &format!("{station},{value}\n");
    }
    write_answer(given, output, table.as_bytes())
}

/// `vcp heights`.
pub fn heights(given: &Given, output: &mut Output) -> Result<u8, Trouble> {
    let stretch = Stretch::read(given)?;
    let heights = heights_of(&input::road_file(given.file())?).map_err(Trouble::refused(given.file()))?;
    let stations = stretch.stations(given, heights.len() - 1)?;
    let rows = stations.map(|station| (station, decimal::write(heights[station].into(), 4, 4)));
    write_table(given, output, HEIGHTS_HEADER, rows)
}

/// Writes what both engines see, side by side, and then says that they agree. Whoever closes the pipe has seen enough of the table,
/// and whether they agree is still wanted.
fn write_both(given: &Given, output: &mut Output, seen: &[Seen]) -> Result<u8, Trouble> {
    let rows = seen.iter().map(|Seen { station, quick, slow }| (*station, format!("{quick},{slow}")));
    even_unread(write_table(given, output, BOTH_HEADER, rows).and_then(|_| output.flush()))?;
    say(&[engines::agreement(&shown(given.file()), seen)?]);
    Ok(ANSWERED)
}

/// `vcp sight`.
pub fn sight(given: &Given, output: &mut Output) -> Result<u8, Trouble> {
    let look = Look {
        eye: given.number("--eye", HEIGHT, EYE_HEIGHT)?,
        object: given.number("--object", HEIGHT, OBJECT_HEIGHT)?,
        farthest: given.number("--farthest", WHOLE, GREATEST_FARTHEST)?,
    };
    let (stretch, direction) = (Stretch::read(given)?, direction(given));
    let (slow, both) = (given.is_there("--slow"), given.is_there("--both"));
    if slow && both {
        return Err(given.wrong("--slow does not go with --both"));
    }
    let refused = Trouble::refused(given.file());
    let heights = heights_of(&input::road_file(given.file())?).map_err(&refused)?;
    let stations = stretch.stations(given, heights.len() - 1)?;
    // The slow engine may take long, and not for a table that is not written.
    file_to_write(given)?;
    if both {
        return write_both(given, output, &engines::both(&heights, direction, look, stations).map_err(&refused)?);
    }
    let engine = if slow { engines::slow } else { engines::quick };
    let sights = engine(&heights, direction, look, stations.clone()).map_err(&refused)?;
    write_table(given, output, SIGHTS_HEADER, stations.zip(sights))
}

#[cfg(test)]
mod tests {
    use std::ffi::OsString;
    use std::{env, fs, process};

    use super::*;
    use crate::commands::COMMANDS;

    /// What each engine sees is written in its own column, also where they differ, and then it fails.
    #[test]
    fn table_of_engines_that_differ() {
        let command = COMMANDS.iter().find(|command| command.name == "sight").expect("it is a command");
        let file = env::temp_dir().join(format!("vcp_engines_that_differ_{}.csv", process::id()));
        let arguments = ["a.vcp", "--both", "-o"].map(OsString::from).into_iter().chain([file.clone().into()]);
        let given = Given::read(command, &arguments.collect::<Vec<_>>()).expect("it is used rightly");
        let seen = [(5, 7, 7), (6, 6, 8)].map(|(station, quick, slow)| Seen { station, quick, slow });
        let trouble = write_both(&given, &mut Output::standard(), &seen).expect_err("they differ");
        let table = fs::read_to_string(&file).expect("the table is written");
        fs::remove_file(&file).expect("the table is there");
        assert_eq!(table, "station_m,sight_m,slow_sight_m\n5,7,7\n6,6,8\n");
        let lines = ["a.vcp: the engines differ at station 6: quick 6 m, slow 8 m", "a.vcp: 1 of 2 stations differs"];
        assert_eq!((trouble.status(), trouble.lines()), (2, &lines.map(String::from)[..]));
    }
}
