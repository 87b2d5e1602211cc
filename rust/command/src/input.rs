//! What a command reads: a file, or standard input where it is named `-`.

use std::fs::File;
use std::io::{self, Read};
use std::path::Path;

use exports::ENOUGH_BYTES;

use crate::trouble::{shown, Trouble};

/// The longest text of a road that is read.
const LONGEST_TEXT: u64 = 1 << 20;

/// Whether a name stands for standard input.
pub fn is_standard(path: &Path) -> bool {
    path.as_os_str() == "-"
}

/// Opens a file or standard input.
pub fn open(path: &Path) -> Result<Box<dyn Read>, Trouble> {
    if is_standard(path) {
        return Ok(Box::new(io::stdin().lock()));
    }
    let file = File::open(path).map_err(|error| Trouble::with_file(path, &error))?;
    Ok(Box::new(file))
}

/// The first bytes of a file, at most so many.
fn first_bytes(path: &Path, most: u64) -> Result<Vec<u8>, Trouble> {
    let mut bytes = Vec::new();
    open(path)?.take(most).read_to_end(&mut bytes).map_err(|error| Trouble::with_file(path, &error))?;
    Ok(bytes)
}

/// As much of a road file as is enough to judge it.
pub fn road_file(path: &Path) -> Result<Vec<u8>, Trouble> {
    first_bytes(path, ENOUGH_BYTES as u64)
}

/// A road's text. Bytes that are no text are passed over in a comment, and are refused anywhere else.
pub fn text(path: &Path) -> Result<String, Trouble> {
    let bytes = first_bytes(path, LONGEST_TEXT + 1)?;
    if bytes.len() as u64 > LONGEST_TEXT {
        return Err(Trouble::failed(format!("{}: a text of more than {LONGEST_TEXT} bytes is not read", shown(path))));
    }
    Ok(String::from_utf8_lossy(&bytes).into_owned())
}
