//! docs/RULES.md, "The lister".

use super::file::read_short;
use super::marks::{mark_road, runs};
use super::road::required_distances;

/// The letters in the order of their bits, which is that of the listing.
const LETTERS: [char; 5] = ['S', 'D', 'R', 's', 'd'];

/// What the lister prints for the bytes on its standard input.
pub fn listing(file: &[u8]) -> String {
    lines(file).unwrap_or_else(|refusal| format!("refused {refusal}\n"))
}

fn lines(file: &[u8]) -> Result<String, u32> {
    let road = read_short(file)?;
    let [stopping, decision] = required_distances(&road);
    let mut marks = vec![0; road.length as usize + 1];
    mark_road(&road, &mut marks)?;
    let mut text = format!("VCP {} {} {stopping} {decision}\n", road.version, road.speed);
    for (bit, letter) in (0..).zip(LETTERS) {
        for [first, last] in runs(&marks, bit) {
            text += &format!("{letter} {first} {last}\n");
        }
    }
    Ok(text)
}
