//! The second calculation: the rules, one file for each section of docs/RULES.md, written from their text in exact whole
//! numbers and with no thought for speed.

pub mod back;
pub mod conversion;
pub mod crest;
pub mod distances;
pub mod file;
pub mod fraction;
pub mod lengths;
pub mod listing;
pub mod marks;
pub mod mirror;
pub mod passing;
pub mod preview;
pub mod road;
pub mod sag;
pub mod sight;

/// The value, or the number of the refusal.
pub type Answer = Result<u32, u32>;
