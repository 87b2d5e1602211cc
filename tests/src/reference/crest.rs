//! docs/RULES.md, "How long a crest must be".

use super::lengths::{least_even, least_length};
use super::Answer;

/// A speed in km/h, a drop in grade in hundredths of a percent, a sight distance in metres, and heights of eye and object in
/// h-units.
#[derive(Clone, Copy, Debug)]
pub struct Crest {
    pub speed: u32,
    pub drop: u32,
    pub sight: u32,
    pub eye: u32,
    pub object: u32,
}

/// side ≤ factor √radicand, for a factor and a radicand that are not negative: a side that is not positive is below any
/// root, and of a positive one the squares are compared.
fn at_most_root(side: i128, factor: i128, radicand: i128) -> bool {
    side <= 0 || side * side <= factor * factor * radicand
}

/// The length L is adequate: S ≤ L and L Q ≥ a S², or L < S and a (2S − L) ≤ Q, with Q = 2(e + o) + √(16 e o).
fn adequate(crest: Crest, length: u32) -> bool {
    let [a, s, e, o, l] = [crest.drop, crest.sight, crest.eye, crest.object, length].map(i128::from);
    let without_root = 2 * (e + o);
    let radicand = 16 * e * o;
    if s <= l {
        at_most_root(a * s * s - l * without_root, l, radicand)
    } else {
        at_most_root(a * (2 * s - l) - without_root, 1, radicand)
    }
}

/// The least even adequate length, whatever the speed is.
pub fn least_adequate(crest: Crest) -> Option<u32> {
    least_even(|length| adequate(crest, length))
}

/// Refused 6, 15, 16, 17 and 18, in that order; else the least length.
pub fn crest_length(crest: Crest) -> Answer {
    if !(20..=130).contains(&crest.speed) {
        return Err(6);
    }
    if !(1..=3_000).contains(&crest.drop) {
        return Err(15);
    }
    if !(1..=800).contains(&crest.sight) {
        return Err(16);
    }
    if !(1..=50_000).contains(&crest.eye) || !(1..=50_000).contains(&crest.object) {
        return Err(17);
    }
    least_length(crest.speed, |length| adequate(crest, length))
}
