//! docs/RULES.md, "Trying another length".

use super::file::{read, read_short, write};
use super::marks::mark_road;
use super::road::{verdict_up_to, Road, GREATEST_LONG_ROAD, GREATEST_SHORT_ROAD};
use super::Answer;

/// A copy of an accepted road with another length of the curve at a place, counted from 0. It too is accepted, or else refused,
/// by an operation that takes no road over so many metres.
pub fn changed(most: u32, road: &Road, place: u32, length: u32) -> Result<Road, u32> {
    let mut copy = road.clone();
    let curve = copy.curves.get_mut(place as usize).ok_or(26_u32)?;
    // A length that does not fit is over 2,000. Nothing else of this curve and of those before it is at fault.
    curve.length = u16::try_from(length).map_err(|_| 11_u32)?;
    verdict_up_to(most, &copy)?;
    Ok(copy)
}

/// Reads a file and writes that of its road with another length of a curve.
pub fn change_length(file: &[u8], place: u32, length: u32, buffer: &mut [u8]) -> Answer {
    write(&changed(GREATEST_LONG_ROAD, &read(file)?, place, length)?, buffer)
}

/// Reads a file, marks its road and the changed copy, and answers how many stations differ.
pub fn preview(file: &[u8], place: u32, length: u32, before: &mut [u8], after: &mut [u8]) -> Answer {
    let road = read_short(file)?;
    let copy = changed(GREATEST_SHORT_ROAD, &road, place, length)?;
    let stations = road.length as usize + 1;
    if before.len() < stations || after.len() < stations {
        return Err(14);
    }
    mark_road(&road, before)?;
    mark_road(&copy, after)?;
    Ok((0..stations).filter(|&i| before[i] != after[i]).count() as u32)
}
