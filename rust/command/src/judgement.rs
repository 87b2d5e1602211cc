//! What the proved functions say of a road file, or of heights.

use exports::{
    Direction, Refusal, LONG_STATIONS, MOST_ENDS, PASSING_LACKING_BIT, PASSING_NOT_JUDGED_BIT, SHORT_STATIONS,
};

use crate::{purpose, tables};

/// The letters of the zones, in the order of their bits.
pub const LETTERS: [u8; 5] = *b"SDRsd";

/// The first and last stations of zones, ascending.
pub type Ends = Vec<[u32; 2]>;

/// The zones of each letter.
pub type Zones = [Ends; 5];

/// The zones of a bit of marks.
fn zones_of(marks: &[u8], bit: u32) -> Result<Ends, Refusal> {
    let mut ends = vec![0; MOST_ENDS];
    let many = exports::zones(marks, bit, &mut ends)? as usize;
    Ok(ends[..2 * many].chunks_exact(2).map(|pair| [pair[0], pair[1]]).collect())
}

/// The zones of each letter of marks.
fn zones_by_letter(marks: &[u8]) -> Result<Zones, Refusal> {
    let mut zones = Zones::default();
    for (bit, zones) in (0..).zip(&mut zones) {
        *zones = zones_of(marks, bit)?;
    }
    Ok(zones)
}

/// Where a road lacks passing sight over a distance, and where passing is not judged.
pub struct Passing {
    pub distance: u32,
    /// The number of stations.
    pub stations: u32,
    pub zones: [Ends; 2],
}

impl Passing {
    /// That of a road file for a passing distance.
    pub fn of_road(file: &[u8], distance: u32) -> Result<Passing, Refusal> {
        let heights = tables::heights_of(file)?;
        let mut marks = vec![0; heights.len()];
        let stations = exports::passing_marks(&heights, distance, &mut marks)?;
        let zones = [zones_of(&marks, PASSING_LACKING_BIT)?, zones_of(&marks, PASSING_NOT_JUDGED_BIT)?];
        Ok(Passing { distance, stations, zones })
    }
}

/// The distances that a driver in a direction needs, and the zones.
pub struct Judgement {
    pub direction: Direction,
    pub speed: u32,
    pub purpose: u32,
    /// The grade that the stations are marked with, as for rising stations, in hundredths of a percent.
    pub grade: i32,
    pub stopping: u32,
    pub decision: u32,
    /// The number of stations.
    pub stations: u32,
    pub zones: Zones,
}

impl Judgement {
    /// That of a road file.
    pub fn of_road(file: &[u8], direction: Direction) -> Result<Judgement, Refusal> {
        let [_, speed, purpose, ..] = roadtext::road_numbers(file)?.head.map(|number| number as u32);
        let mut marks = vec![0; LONG_STATIONS];
        let stations = exports::mark_file(file, direction, &mut marks)?;
        marks.truncate(stations as usize);
        Ok(Judgement {
            direction,
            speed,
            purpose,
            grade: exports::file_grade(file, direction)?,
            stopping: exports::file_distance(file, direction, purpose::STOPPING)?,
            decision: exports::file_distance(file, direction, purpose)?,
            stations,
            zones: zones_by_letter(&marks)?,
        })
    }

    /// That of heights, one a metre, with a grade as for rising stations.
    pub fn of_heights(
        speed: u32,
        purpose: u32,
        grade: i32,
        heights: &[i32],
        direction: Direction,
    ) -> Result<Judgement, Refusal> {
        let mut marks = vec![0; heights.len()];
        let stations = exports::marks(speed, purpose, grade, heights, direction, &mut marks)?;
        let needed = |purpose| exports::driven_distance(speed, purpose, grade, direction);
        let (stopping, decision) = (needed(purpose::STOPPING)?, needed(purpose)?);
        let zones = zones_by_letter(&marks)?;
        Ok(Judgement { direction, speed, purpose, grade, stopping, decision, stations, zones })
    }
}

/// What another length of a curve does.
pub struct Preview {
    /// The road as it is.
    pub before: Judgement,
    /// The changed road.
    pub after: Judgement,
    /// The zones of the stations that have a letter after the change and not before it.
    pub gained: Zones,
    /// The zones of the stations that have a letter before the change and not after it.
    pub lost: Zones,
    /// The number of stations whose marks differ.
    pub differing: u32,
    /// The file of the changed road.
    pub changed: Vec<u8>,
}

impl Preview {
    /// That of a road file and another length in metres of the curve at a place, counted from 0.
    pub fn of_road(file: &[u8], place: u32, length: u32) -> Result<Preview, Refusal> {
        let [mut marks, mut changed_marks] = [[0; SHORT_STATIONS]; 2];
        let differing = exports::preview(file, place, length, &mut marks, &mut changed_marks)?;
        let mut changed = vec![0; file.len()];
        exports::change_length(file, place, length, &mut changed)?;
        let (before, after) =
            (Judgement::of_road(file, Direction::Rising)?, Judgement::of_road(&changed, Direction::Rising)?);
        // Behind the last station both lists are 0, so that nothing is gained or lost there.
        let gained = zones_by_letter(&without(&changed_marks, &marks))?;
        let lost = zones_by_letter(&without(&marks, &changed_marks))?;
        Ok(Preview { before, after, gained, lost, differing, changed })
    }
}

/// The bits of marks that other marks do not have.
fn without(marks: &[u8], others: &[u8]) -> Vec<u8> {
    marks.iter().zip(others).map(|(mark, other)| mark & !other).collect()
}
