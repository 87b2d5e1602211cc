//! docs/RULES.md, "Passing", and source document 002, section 4.3 and equations (19) and (20).

use std::ops::RangeInclusive;

use super::distances::up_to_five;
use super::fraction::Fraction;
use super::marks::{finding, Finding, EYE};
use super::sight::{farthest_verdict, fill, list_verdict, Look};
use super::Answer;

/// The height of what has to be seen of an oncoming car, 1.08 m, in h-units.
pub const OBJECT: u32 = 10_800;

/// The ranges of t1 in tenths of a second, a in hundredths of km/h per second, v and m in tenths of km/h, t2 in
/// tenths of a second and d3 in metres.
pub const RANGES: [RangeInclusive<u32>; 6] = [36..=45, 225..=241, 300..=1_300, 100..=200, 93..=113, 30..=90];

/// The distance in metres before rounding: d1 = 0.278 t1 (v − m + a t1 / 2), d2 = 0.278 v t2, d3, and d4, which is
/// two thirds of d2. The six are those of the ranges, in their order and units.
pub fn exact_distance([t1, a, v, m, t2, d3]: [u32; 6]) -> Fraction {
    let [t1, v, m, t2] = [t1, v, m, t2].map(|tenths| Fraction::new(tenths.into(), 10));
    let a = Fraction::new(a.into(), 100);
    let factor = Fraction::new(278, 1_000);
    let d1 = factor * t1 * (v - m + a * t1 / Fraction::whole(2));
    let d2 = factor * v * t2;
    let d4 = Fraction::new(2, 3) * d2;
    d1 + d2 + Fraction::from(d3) + d4
}

/// Refused 24 if any of the six is out of its range; else the distance, rounded up to 5 m.
pub fn passing_distance(six: [u32; 6]) -> Answer {
    if !RANGES.iter().zip(&six).all(|(range, number)| range.contains(number)) {
        return Err(24);
    }
    Ok(up_to_five(exact_distance(six)))
}

/// A station's byte for a passing distance.
fn mark(heights: &[i64], i: usize, distance: u32) -> u8 {
    match finding(heights, i, Look { eye: EYE, object: OBJECT, farthest: distance }) {
        Finding::Lacking => 1 << 5,
        Finding::NotJudged => 1 << 6,
        Finding::There => 0,
    }
}

/// Refused 19, 21 and 14, in that order; else each station's byte.
pub fn passing_marks(heights: &[i32], distance: u32, list: &mut [u8]) -> Answer {
    list_verdict(heights.len())?;
    farthest_verdict(distance)?;
    fill(heights, list, |heights, i| mark(heights, i, distance))
}
