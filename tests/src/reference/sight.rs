//! docs/RULES.md, "What can be seen".

use std::ops::{Add, Mul, RangeInclusive};

use super::fraction::Fraction;
use super::Answer;

/// A height in h-units: a stored one, or an exact one on the parabolas and straights.
pub trait Height: Copy + From<u32> + Add<Output = Self> + Mul<Output = Self> + PartialOrd {}
impl Height for i64 {}
impl Height for Fraction {}

/// The heights of eye and object above the road and the farthest distance, as one asks for sight.
#[derive(Clone, Copy, Debug)]
pub struct Look {
    pub eye: u32,
    pub object: u32,
    pub farthest: u32,
}

/// The line from the eye at i to the object at j clears or touches the road at k, a station between:
/// (height i + e)(j − k) + (height j + o)(k − i) ≥ (height k)(j − i).
pub fn clears<H: Height>(heights: &[H], look: Look, i: usize, k: usize, j: usize) -> bool {
    let metres = |from: usize, to: usize| H::from((to - from) as u32);
    let eye = heights[i] + H::from(look.eye);
    let object = heights[j] + H::from(look.object);
    eye * metres(k, j) + object * metres(i, k) >= heights[k] * metres(i, j)
}

/// From i the object at j is seen: the line clears or touches the road at every station strictly between.
pub fn seen<H: Height>(heights: &[H], look: Look, i: usize, j: usize) -> bool {
    (i + 1..j).all(|k| clears(heights, look, i, k, j))
}

/// The stations ahead of i that come into question: at most the farthest distance, at most those left.
pub fn ahead<H>(heights: &[H], look: Look, i: usize) -> RangeInclusive<usize> {
    let last = heights.len() - 1;
    i + 1..=last.min(i + look.farthest as usize)
}

/// The available sight: how many stations ahead are seen before the first hidden one.
pub fn available_sight<H: Height>(heights: &[H], look: Look, i: usize) -> usize {
    ahead(heights, look, i).take_while(|&j| seen(heights, look, i, j)).count()
}

/// The object stations that are tried from i: those that are seen, and the first hidden one, where there is one.
pub fn tried<H: Height>(heights: &[H], look: Look, i: usize) -> RangeInclusive<usize> {
    let hidden = ahead(heights, look, i).find(|&j| !seen(heights, look, i, j));
    hidden.map_or_else(|| ahead(heights, look, i), |hidden| i + 1..=hidden)
}

/// The comparisons of sight lines for these: one where the road itself is seen, an object of height 0, and else two.
pub fn comparisons<H: Height>(heights: &[H], look: Look, i: usize) -> usize {
    let road = Look { object: 0, ..look };
    tried(heights, look, i).map(|j| if seen(heights, road, i, j) { 1 } else { 2 }).sum()
}

/// Stored heights in the numbers that sight is worked out in.
pub fn whole_heights(heights: &[i32]) -> Vec<i64> {
    heights.iter().copied().map(i64::from).collect()
}

/// Refusal 19, of a list with a place for each station.
pub fn list_verdict(places: usize) -> Result<(), u32> {
    if (1..=100_001).contains(&places) {
        Ok(())
    } else {
        Err(19)
    }
}

/// Refusal 21.
pub(super) fn farthest_verdict(farthest: u32) -> Result<(), u32> {
    if (1..=8_000).contains(&farthest) {
        Ok(())
    } else {
        Err(21)
    }
}

/// Refusals 17 and 21.
pub(super) fn look_verdict(look: Look) -> Result<(), u32> {
    if !(1..=50_000).contains(&look.eye) || !(1..=50_000).contains(&look.object) {
        return Err(17);
    }
    farthest_verdict(look.farthest)
}

/// Fills each station's place of a lent list with what is said of the station; refused 14 if the list is shorter than
/// the heights.
pub(super) fn fill<T>(heights: &[i32], list: &mut [T], said_of: impl Fn(&[i64], usize) -> T) -> Answer {
    if list.len() < heights.len() {
        return Err(14);
    }
    let whole = whole_heights(heights);
    for (i, place) in list[..heights.len()].iter_mut().enumerate() {
        *place = said_of(&whole, i);
    }
    Ok(heights.len() as u32)
}

/// What is said of one station, which is on the list.
pub(super) fn of_station(
    heights: &[i32],
    station: u32,
    look: Look,
    said: impl Fn(&[i64], Look, usize) -> usize,
) -> Answer {
    list_verdict(heights.len())?;
    if station as usize >= heights.len() {
        return Err(20);
    }
    look_verdict(look)?;
    Ok(said(&whole_heights(heights), look, station as usize) as u32)
}

/// Sight from one station.
pub fn sight(heights: &[i32], station: u32, look: Look) -> Answer {
    of_station(heights, station, look, available_sight)
}

/// How many sight lines the quick engine compares from one station.
pub fn sight_comparisons(heights: &[i32], station: u32, look: Look) -> Answer {
    of_station(heights, station, look, comparisons)
}

pub fn sight_profile(heights: &[i32], look: Look, sights: &mut [u16]) -> Answer {
    list_verdict(heights.len())?;
    look_verdict(look)?;
    fill(heights, sights, |heights, i| available_sight(heights, look, i) as u16)
}
