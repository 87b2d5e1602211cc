//! docs/RULES.md, "Converting a file": from byte to byte by document 02's layout, and not by way of the road's numbers.

use super::file::read;
use super::Answer;

/// The bytes of an accepted file in the other version. N, which begins at byte 7, and the PVI at the front of each record have two
/// bytes in version 1 and four in version 2, of which the last two are 0 up to 8,000 m. Start height, first grade and the number of
/// curves have 7 bytes behind N, length and grade out 4 behind a PVI.
fn converted(file: &[u8]) -> Vec<u8> {
    let (other, own_bytes, other_bytes) = if file[3] == 1 { (2, 2, 4) } else { (1, 4, 2) };
    let station = |own: &[u8]| {
        let mut bytes = own.to_vec();
        bytes.resize(other_bytes, 0);
        bytes
    };
    let (n, numbers) = (7, 7 + own_bytes);
    let mut bytes =
        [&file[..3], &[other, 0], &file[5..n], &station(&file[n..numbers]), &file[numbers..numbers + 7]].concat();
    for record in file[numbers + 7..].chunks(own_bytes + 4) {
        let (pvi, others) = record.split_at(own_bytes);
        bytes.extend([&station(pvi), others].concat());
    }
    bytes
}

/// Converts a file: refused as reading is, then 27 for a road over 8,000 m where version 1 is wanted, then 14.
pub fn convert(file: &[u8], buffer: &mut [u8]) -> Answer {
    let road = read(file)?;
    if road.version == 2 && road.length > 8_000 {
        return Err(27);
    }
    let other = converted(file);
    if buffer.len() < other.len() {
        return Err(14);
    }
    buffer[..other.len()].copy_from_slice(&other);
    Ok(other.len() as u32)
}
