//! A judgement in words, in columns that line up.

use exports::Direction;
use picture::{MEANINGS, PASSING_MEANINGS};
use roadtext::decimal;

use crate::columns::{lined_up, Row};
use crate::judgement::{Ends, Judgement, Passing};
use crate::purpose;

pub fn row<const MANY: usize>(items: [&str; MANY]) -> Row {
    items.map(str::to_string).to_vec()
}

/// The header of the sums over so many stations.
fn sums_header(stations: u32) -> Row {
    row([&format!("of {stations} stations"), "needed", "judged", "lacking", "share", "not judged"])
}

/// How many stations zones have.
pub fn stations_in(zones: &Ends) -> u32 {
    zones.iter().map(|&[first, last]| last - first + 1).sum()
}

/// A part of so many, in percent with one decimal, rounded.
fn share(part: u32, all: u32) -> String {
    match all {
        0 => "-".to_string(),
        _ => {
            let tenths = (1_000 * u64::from(part) + u64::from(all) / 2) / u64::from(all);
            format!("{}.{} %", tenths / 10, tenths % 10)
        }
    }
}

/// The row of a distance: at how many stations it is judged, lacking and not judged.
fn sum(name: &str, distance: u32, stations: u32, [lacking, not_judged]: [&Ends; 2]) -> Row {
    let [lacking, not_judged] = [lacking, not_judged].map(stations_in);
    let judged = stations - not_judged;
    let [judged_word, lacking_word, not_judged_word] =
        [judged, lacking, not_judged].map(|stations| stations.to_string());
    vec![name.to_string(), format!("{distance} m"), judged_word, lacking_word, share(lacking, judged), not_judged_word]
}

/// What is said where there is no zone.
pub const NOWHERE: &str = "nowhere";

/// What is said of a zone: its first and its last station, and its length.
pub fn zone([first, last]: [u32; 2], first_station: u32) -> [String; 3] {
    let [from, to] = [first, last].map(|station| (first_station + station).to_string());
    [from, to, format!("{} m", last - first + 1)]
}

/// The rows of the zones of one meaning.
pub fn zone_rows(meaning: &str, zones: &Ends, first_station: u32) -> Vec<Row> {
    if zones.is_empty() {
        return vec![row([meaning, NOWHERE])];
    }
    let rows = zones.iter().map(|&ends| {
        let [from, to, length] = zone(ends, first_station);
        vec![meaning.to_string(), from, to, length]
    });
    rows.collect()
}

/// The zones of several meanings, below their header.
fn zone_table(meanings: &[&str], zones: &[Ends], first_station: u32) -> String {
    let mut rows = vec![row(["zone", "from", "to", "length"])];
    rows.extend(meanings.iter().zip(zones).flat_map(|(meaning, zones)| zone_rows(meaning, zones, first_station)));
    lined_up(&rows)
}

/// The words for the stations of what is reported, in the order in which a driver comes to them.
fn stretch(direction: Direction, first_station: u32, stations: u32) -> String {
    let last_station = first_station + (stations - 1);
    match direction {
        Direction::Rising => format!("from station {first_station} to {last_station} (rising)"),
        Direction::Falling => format!("from station {last_station} to {first_station} (falling)"),
    }
}

/// What a grade is for whoever comes back, behind its number: that has the sign of rising stations.
fn slope(direction: Direction, grade: i32) -> &'static str {
    match (direction, grade.signum()) {
        (Direction::Falling, 1) => " (downhill)",
        (Direction::Falling, -1) => " (uphill)",
        _ => "",
    }
}

/// The words for what is judged, from its first station on.
pub fn subject(judgement: &Judgement, first_station: u32) -> String {
    let Judgement { direction, speed, purpose, grade, stations, .. } = *judgement;
    let (purpose, percent, slope) =
        (purpose::name(purpose), decimal::write(grade.into(), 2, 2), slope(direction, grade));
    let stretch = stretch(direction, first_station, stations);
    format!("{speed} km/h, {purpose}, marked with grade {percent} %{slope}, {stretch}")
}

/// The report of what is judged under this name, from its first station on.
pub fn report(name: &str, judgement: &Judgement, first_station: u32) -> String {
    let Judgement { stopping, decision, stations, ref zones, .. } = *judgement;
    let [stopping_lacking, decision_lacking, _, stopping_not_judged, decision_not_judged] = zones;
    let sums = [
        sums_header(stations),
        sum("stopping sight", stopping, stations, [stopping_lacking, stopping_not_judged]),
        sum("decision sight", decision, stations, [decision_lacking, decision_not_judged]),
    ];
    format!(
        "{name}: {}\n\n{}\n{}",
        subject(judgement, first_station),
        lined_up(&sums),
        zone_table(&MEANINGS, zones, first_station)
    )
}

/// The report of where a road under this name lacks passing sight.
pub fn passing(name: &str, passing: &Passing) -> String {
    let Passing { distance, stations, ref zones } = *passing;
    let sums = [sums_header(stations), sum("passing sight", distance, stations, zones.each_ref())];
    format!(
        "{name}: passing sight over {distance} m, {}\n\n{}\n{}",
        stretch(Direction::Rising, 0, stations),
        lined_up(&sums),
        zone_table(&PASSING_MEANINGS, zones, 0)
    )
}
