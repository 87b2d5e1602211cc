//! docs/RULES.md, "How long a sag must be".

use super::lengths::{least_even, least_length};
use super::Answer;

/// A speed in km/h, a rise in grade in hundredths of a percent, and a sight distance in metres.
#[derive(Clone, Copy, Debug)]
pub struct Sag {
    pub speed: u32,
    pub rise: u32,
    pub sight: u32,
}

/// The length L is adequate: S ≤ L and L Q ≥ a S², or L < S and a (2S − L) ≤ Q, with Q = 12,000 + 350 S.
fn adequate(sag: Sag, length: u32) -> bool {
    let [a, s, l] = [sag.rise, sag.sight, length].map(u64::from);
    let q = 12_000 + 350 * s;
    (s <= l && l * q >= a * s * s) || (l < s && a * (2 * s - l) <= q)
}

/// The least even adequate length, whatever the speed is.
pub fn least_adequate(sag: Sag) -> Option<u32> {
    least_even(|length| adequate(sag, length))
}

/// Refused 6, 15, 16 and 18, in that order; else the least length.
pub fn sag_length(sag: Sag) -> Answer {
    if !(20..=130).contains(&sag.speed) {
        return Err(6);
    }
    if !(1..=3_000).contains(&sag.rise) {
        return Err(15);
    }
    if !(1..=800).contains(&sag.sight) {
        return Err(16);
    }
    least_length(sag.speed, |length| adequate(sag, length))
}
