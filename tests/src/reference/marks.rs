//! docs/RULES.md, "Marks and zones".

use super::distances::required_distance;
use super::file::{read, read_short};
use super::road::{marking_grade, stored_height, Road};
use super::sight::{available_sight, fill, list_verdict, Look};
use super::Answer;

/// 1.08 m and 0.60 m (source document 002), in h-units.
pub const EYE: u32 = 10_800;
pub const OBJECT: u32 = 6_000;

/// The verdict on a station for one required distance.
#[derive(Clone, Copy, PartialEq)]
pub(super) enum Finding {
    NotJudged,
    Lacking,
    There,
}

/// The verdict on a station with a look whose farthest distance is the required one.
pub(super) fn finding(heights: &[i64], i: usize, look: Look) -> Finding {
    let required = look.farthest as usize;
    let last = heights.len() - 1;
    if i + required > last {
        Finding::NotJudged
    } else if available_sight(heights, look, i) < required {
        Finding::Lacking
    } else {
        Finding::There
    }
}

/// The look of a driver who has to see so far.
pub(super) fn driver(required: u32) -> Look {
    Look { eye: EYE, object: OBJECT, farthest: required }
}

/// A station's byte, from the distances required for stopping and for the decision.
pub fn mark(heights: &[i64], i: usize, stopping: u32, decision: u32) -> u8 {
    byte([stopping, decision].map(|required| finding(heights, i, driver(required))))
}

/// The byte of a station with these verdicts for stopping and for the decision.
pub(super) fn byte([stopping, decision]: [Finding; 2]) -> u8 {
    let bits = [
        stopping == Finding::Lacking,
        decision == Finding::Lacking,
        decision == Finding::Lacking && stopping == Finding::There,
        stopping == Finding::NotJudged,
        decision == Finding::NotJudged,
    ];
    bits.iter().enumerate().map(|(bit, &set)| u8::from(set) << bit).sum()
}

/// Refusals 6, 7, 10 and 19 of marks.
pub(super) fn marks_verdict(speed: u32, purpose: u32, grade: i32, heights: &[i32]) -> Result<(), u32> {
    if !(20..=130).contains(&speed) {
        return Err(6);
    }
    if !(1..=5).contains(&purpose) {
        return Err(7);
    }
    if !(-1_500..=1_500).contains(&grade) {
        return Err(10);
    }
    list_verdict(heights.len())
}

pub fn marks(speed: u32, purpose: u32, grade: i32, heights: &[i32], list: &mut [u8]) -> Answer {
    marks_verdict(speed, purpose, grade, heights)?;
    let stopping = required_distance(speed, 0, grade)?;
    let decision = required_distance(speed, purpose, grade)?;
    fill(heights, list, |heights, i| mark(heights, i, stopping, decision))
}

/// Marks an accepted road.
pub(super) fn mark_road(road: &Road, list: &mut [u8]) -> Answer {
    let heights: Vec<i32> = (0..=road.length).map(|station| stored_height(road, station)).collect();
    marks(road.speed.into(), road.purpose.into(), marking_grade(road), &heights, list)
}

/// Reads a file and marks its road, as the library does.
pub fn mark_file(file: &[u8], list: &mut [u8]) -> Answer {
    mark_road(&read(file)?, list)
}

/// The same as the van does.
pub fn mark_road_file(file: &[u8], list: &mut [u8]) -> Answer {
    mark_road(&read_short(file)?, list)
}

/// All longest runs of stations with this bit, ascending, each as its first and last station.
pub fn runs(marks: &[u8], bit: u32) -> Vec<[u32; 2]> {
    let has_bit = |station: usize| marks.get(station).is_some_and(|mark| mark >> bit & 1 == 1);
    let firsts = (0..marks.len()).filter(|&station| has_bit(station) && (station == 0 || !has_bit(station - 1)));
    let lasts = (0..marks.len()).filter(|&station| has_bit(station) && !has_bit(station + 1));
    firsts.zip(lasts).map(|(first, last)| [first as u32, last as u32]).collect()
}

pub fn zones(marks: &[u8], bit: u32, list: &mut [u32]) -> Answer {
    if bit > 6 {
        return Err(22);
    }
    list_verdict(marks.len())?;
    let zones = runs(marks, bit);
    if list.len() < 2 * zones.len() {
        return Err(23);
    }
    list[..2 * zones.len()].copy_from_slice(&zones.concat());
    Ok(zones.len() as u32)
}
