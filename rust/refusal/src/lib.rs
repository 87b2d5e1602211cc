//! The refusals of docs/RULES.md: why a proved function gives no answer.

#![forbid(unsafe_code)]
#![deny(missing_docs)]

use std::error::Error;
use std::fmt;

/// Why there is no answer: one of the numbers of docs/RULES.md, 1 to 27, with its reason in words.
///
/// ```
/// let refusal = refusal::answer(-6).unwrap_err();
/// assert_eq!(refusal.number(), 6);
/// assert_eq!(refusal.to_string(), "refused 6: the speed is not 20 to 130 km/h");
/// ```
#[derive(Clone, Copy, Debug, PartialEq, Eq, PartialOrd, Ord, Hash)]
pub struct Refusal {
    number: u32,
}

/// The reasons of refusals 1 to 27, in order.
const REASONS: [&str; 27] = [
    "the file has fewer than 16 bytes, or fewer than 18 in version 2",
    "the file does not begin with the letters VCP",
    "the version is neither 1 nor 2",
    "there are more than 32 curves",
    "the file's total length is not 16 bytes and 6 for each curve, or 18 and 8 in version 2",
    "the speed is not 20 to 130 km/h",
    "the purpose is not 0 to 5, or that of a road is not 1 to 5",
    "the road's length is not 1 to 8,000 m, or to 100,000 m in version 2; the listing, the preview and the van take no road \
     over 8,000 m",
    "the start height is not -10,000,000 to 90,000,000 h-units (-1,000 to 9,000 m)",
    "a grade is not -1,500 to 1,500 hundredths of a percent (-15 to 15 %)",
    "a curve's length is odd or over 2,000 m",
    "a curve begins before station 0 or ends after the road",
    "a curve begins before the end of the curve listed just before it",
    "a lent list or buffer is too short",
    "the drop or rise in grade is not 1 to 3,000 hundredths of a percent (0.01 to 30 %)",
    "the sight distance is not 1 to 800 m",
    "the height of eye or object is not 1 to 50,000 h-units (0.0001 to 5 m)",
    "no even length up to 2,000 m is adequate",
    "the list of heights or marks is empty or longer than 100,001",
    "the station is beyond the last",
    "the farthest or the passing distance is not 1 to 8,000 m",
    "the bit number is over 6",
    "the lent list holds fewer than two numbers for each zone",
    "of the manoeuvre t1 is not 3.6 to 4.5 s, a not 2.25 to 2.41 km/h/s, v not 30 to 130 km/h, m not 10 to 20 km/h, \
     t2 not 9.3 to 11.3 s or d3 not 30 to 90 m",
    "the grades of a curve of length 0 differ by more than 50 hundredths of a percent (0.5 %)",
    "there is no curve at this place: places are counted from 0",
    "the road is over 8,000 m, which is more than a file of version 1 holds",
];

impl Refusal {
    /// The rules' number of the refusal.
    pub fn number(self) -> u32 {
        self.number
    }

    /// The reason in words.
    fn reason(self) -> &'static str {
        let place = (self.number as usize).wrapping_sub(1);
        REASONS.get(place).copied().unwrap_or("the rules do not name this number")
    }
}

impl fmt::Display for Refusal {
    fn fmt(&self, formatter: &mut fmt::Formatter) -> fmt::Result {
        write!(formatter, "refused {}: {}", self.number, self.reason())
    }
}

impl Error for Refusal {}

/// An answer as the exported functions give it, where a refusal is minus its number.
///
/// # Errors
/// The refusal.
///
/// # Panics
/// Where the number does not fit 32 bits: each answer does.
pub fn answer(signed: i64) -> Result<u32, Refusal> {
    let number = u32::try_from(signed.unsigned_abs()).expect("an answer fits 32 bits");
    if signed < 0 {
        Err(Refusal { number })
    } else {
        Ok(number)
    }
}

#[cfg(test)]
mod tests {
    use super::*;

    #[test]
    fn the_sign_parts_answers_from_refusals() {
        assert_eq!(answer(0), Ok(0));
        assert_eq!(answer(2_147_483_647), Ok(2_147_483_647));
        assert_eq!(answer(-1), Err(Refusal { number: 1 }));
        assert_eq!(answer(-23), Err(Refusal { number: 23 }));
    }

    #[test]
    fn each_number_has_its_own_reason() {
        let reason = |number: u32| Refusal { number }.reason();
        let mut reasons: Vec<&str> = (1..=27).map(reason).collect();
        assert_eq!(reasons[5], "the speed is not 20 to 130 km/h");
        assert_eq!(reasons[22], "the lent list holds fewer than two numbers for each zone");
        reasons.sort_unstable();
        reasons.dedup();
        assert_eq!(reasons.len(), 27);
        assert!([0, 28, u32::MAX].iter().all(|&number| !reasons.contains(&reason(number))));
    }

    #[test]
    fn words_come_with_the_number() {
        let refusal = Refusal { number: 18 };
        assert_eq!(refusal.to_string(), "refused 18: no even length up to 2,000 m is adequate");
        let error: Box<dyn Error + Send + Sync> = refusal.into();
        assert_eq!(error.to_string(), refusal.to_string());
    }
}
