//! Heights that were surveyed, one a metre: the CSV that `vcp heights` writes, read line by line.

use std::io::{BufRead, BufReader, Read};
use std::path::Path;

use exports::GREATEST_LIST;
use roadtext::{decimal, BYTE_ORDER_MARK};

use crate::tables::HEIGHTS_HEADER;
use crate::trouble::{shown, Trouble};

/// The longest line that is read, and the most lines: there is room for each station of the longest list, and for blank ones.
const LONGEST_LINE: u64 = 1_000;
const MOST_LINES: usize = 10 * GREATEST_LIST;

/// Heights in h-units, and the station of the first.
pub struct Survey {
    pub first: u32,
    pub heights: Vec<i32>,
}

/// The parts of a line: a station and its height in h-units.
fn station_and_height(line: &str) -> Result<(u32, i32), String> {
    let (station, height) = line.split_once(',').ok_or("a line has a station, a comma and its height")?;
    let named = |name: &'static str| move |reason: String| format!("{name}: {reason}");
    let number = decimal::read(station.trim(), 0).map_err(named("station"))?;
    let units = decimal::read(height.trim(), 4).map_err(named("height"))?;
    let station_number = u32::try_from(number).map_err(|_| format!("station: {:?} is out of range", station.trim()))?;
    let height_units = i32::try_from(units).map_err(|_| format!("height: {:?} is out of range", height.trim()))?;
    Ok((station_number, height_units))
}

impl Survey {
    /// Takes a line. Blank ones, and the header on the first line, are passed over.
    fn take(&mut self, number: usize, line: &str) -> Result<(), String> {
        let line = line.trim();
        if line.is_empty() || (number == 1 && line == HEIGHTS_HEADER) {
            return Ok(());
        }
        let (station, height) = station_and_height(line)?;
        if self.heights.is_empty() {
            self.first = station;
        }
        let next = u64::from(self.first) + self.heights.len() as u64;
        match u64::from(station) {
            station if station == next => {}
            station if station == next + 1 => return Err(format!("station {next} is missing before {station}")),
            station if station > next => {
                return Err(format!("stations {next} to {} are missing before {station}", station - 1));
            }
            station if station >= u64::from(self.first) => return Err(format!("station {station} stands twice")),
            station => return Err(format!("station {station} stands after station {}", next - 1)),
        }
        self.heights.push(height);
        Ok(())
    }

    /// Reads a survey. Of one that has more heights than any list may, one more tells as much as all.
    pub fn read(path: &Path, input: impl Read) -> Result<Survey, Trouble> {
        let mut input = BufReader::new(input);
        let mut survey = Survey { first: 0, heights: Vec::new() };
        let mut bytes = Vec::new();
        for number in 1.. {
            bytes.clear();
            let read = input.by_ref().take(LONGEST_LINE).read_until(b'\n', &mut bytes);
            let length = read.map_err(|error| Trouble::with_file(path, &error))?;
            if length == 0 || survey.heights.len() > GREATEST_LIST {
                break;
            }
            let line = String::from_utf8_lossy(&bytes);
            let line = line.strip_prefix(BYTE_ORDER_MARK).filter(|_| number == 1).unwrap_or(&line);
            let taken = match length as u64 {
                LONGEST_LINE => Err(format!("the line has {LONGEST_LINE} bytes or more")),
                _ if number > MOST_LINES => Err(format!("there are more than {MOST_LINES} lines")),
                _ => survey.take(number, line),
            };
            taken.map_err(|reason| Trouble::failed(format!("{}:{number}: {reason}", shown(path))))?;
        }
        Ok(survey)
    }
}
