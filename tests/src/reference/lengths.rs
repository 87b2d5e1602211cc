//! docs/RULES.md, "How long a crest must be" and "How long a sag must be": what crests and sags share.

use super::Answer;

/// The least even length from 0 to 2,000 that passes a test.
pub(super) fn least_even(passes: impl Fn(u32) -> bool) -> Option<u32> {
    (0..=2_000).step_by(2).find(|&length| passes(length))
}

/// The length is at least 0.6 V metres, here in tenths of a metre.
fn at_least_minimum(speed: u32, length: u32) -> bool {
    10 * u64::from(length) >= 6 * u64::from(speed)
}

/// The least even length from 0 to 2,000 that is adequate and at least 0.6 V; refused 18 where no even length is adequate.
pub(super) fn least_length(speed: u32, adequate: impl Fn(u32) -> bool) -> Answer {
    if least_even(&adequate).is_none() {
        return Err(18);
    }
    let least = least_even(|length| at_least_minimum(speed, length) && adequate(length));
    Ok(least.expect("where a length is adequate, one of those from 0.6 V on is"))
}
