//! What the tests share: the second calculation that the proved functions are compared with, the comparing of lent lists,
//! the engines of sight, the lister, the documents, what is drawn of a road, generators of inputs and counts.

use exports::Refusal;

use crate::reference::Answer;

pub mod drawn;
pub mod engines;
pub mod heights;
pub mod lent;
pub mod lister;
pub mod pages;
pub mod quick;
pub mod random;
pub mod reference;
pub mod roads;
pub mod tally;

/// An answer as the second calculation gives it, with the bare number of a refusal.
pub fn bare(answer: Result<u32, Refusal>) -> Answer {
    answer.map_err(Refusal::number)
}
