//! What a driver needs to see on a road, and where a road's profile hides it: the proved functions of the crate `van`, safe
//! to call from Rust.
//!
//! ```
//! // A driver at 80 km/h on a level road stops within 130 m.
//! let sight = vcp::required_distance(80, 0, 0)?;
//! assert_eq!(sight, 130);
//! // For the driver to see so far over a crest where the grade drops by 6 %, it is at least 156 m long.
//! assert_eq!(vcp::crest_length(80, 600, sight, 10_800, 6_000)?, 156);
//! # Ok::<(), vcp::Refusal>(())
//! ```
//!
//! Stations and lengths along the road are whole metres, speeds whole km/h, grades hundredths of a percent, uphill
//! positive, and heights h-units, which are tenths of a millimetre.
//!
//! Each function takes any input and ends: it answers, or refuses by one of the numbers of docs/RULES.md, and a refusal leaves a
//! lent list as it was. None keeps anything between two calls, so each may be called from many threads at once.

#![deny(missing_docs)]

pub use refusal::Refusal;

/// Bit 0 of a mark, letter S: the station is judged for stopping, and stopping sight is lacking.
pub const STOPPING_LACKING: u8 = 1;

/// Bit 1 of a mark, letter D: the station is judged for the decision, and decision sight is lacking.
pub const DECISION_LACKING: u8 = 1 << 1;

/// Bit 2 of a mark, letter R, the reduced decision zone: decision sight is lacking, and the station is judged for stopping
/// and has its stopping sight.
pub const REDUCED_DECISION: u8 = 1 << 2;

/// Bit 3 of a mark, letter s: the station is not judged for stopping, as the road ends too soon after it.
pub const STOPPING_NOT_JUDGED: u8 = 1 << 3;

/// Bit 4 of a mark, letter d: the station is not judged for the decision, as the road ends too soon after it.
pub const DECISION_NOT_JUDGED: u8 = 1 << 4;

/// As many stations as a road that [`mark_road_file`] takes can have, of either version: marks of this length have a place for
/// each station of any such road.
pub const MOST_STATIONS: usize = 8_001;

// A test compares these declarations with crates/van/src/lib.rt.
extern "C" {
    fn vcp_required_distance(speed: u32, purpose: u32, grade: i32) -> i32;
    fn vcp_crest_length(speed: u32, drop: u32, sight: u32, eye: u32, object: u32) -> i32;
    fn vcp_mark_road_file(file: *const u8, file_length: usize, marks: *mut u8, marks_length: usize) -> i32;
}

/// The distance in metres that a driver at a speed in km/h needs to see for a purpose, on a grade in hundredths of a
/// percent, uphill positive. The decisions C to E need the same distance on every grade.
///
/// | Purpose | Meaning |
/// |---|---|
/// | 0 | stopping |
/// | 1 to 5 | decision A to E |
///
/// # Errors
/// Refused 6 if the speed is not 20 to 130, then 7 if the purpose is not 0 to 5, then 10 if the grade is not -1,500 to
/// 1,500, whatever the purpose is.
///
/// ```
/// assert_eq!(vcp::required_distance(80, 0, 0), Ok(130));
/// assert_eq!(vcp::required_distance(130, 5, 0), Ok(525));
/// // Downhill by 6 % the driver needs more, uphill less.
/// assert_eq!(vcp::required_distance(90, 0, -600), Ok(175));
/// assert_eq!(vcp::required_distance(90, 0, 0), Ok(160));
/// assert_eq!(vcp::required_distance(90, 0, 600), Ok(145));
///
/// let refusal = vcp::required_distance(131, 0, 0).unwrap_err();
/// assert_eq!(refusal.number(), 6);
/// assert_eq!(vcp::required_distance(90, 5, -1_501).unwrap_err().number(), 10);
/// ```
pub fn required_distance(speed: u32, purpose: u32, grade: i32) -> Result<u32, Refusal> {
    // SAFETY: it takes any three numbers and touches no memory of the caller.
    refusal::answer(unsafe { vcp_required_distance(speed, purpose, grade) }.into())
}

/// The least even length in metres of a crest over which an object is seen from a sight distance in metres, and which is at
/// least 0.6 V metres for the speed V in km/h, so that a driver feels no kink. The drop in grade is in hundredths of a
/// percent, and the heights of eye and object above the road are in h-units: for a car's driver and the object to stop for
/// they are 10,800 and 6,000.
///
/// # Errors
/// Refused 6 if the speed is not 20 to 130, then 15 if the drop is not 1 to 3,000, then 16 if the sight distance is not 1 to
/// 800, then 17 if either height is not 1 to 50,000, then 18 if the object is seen over no even length up to 2,000 m: 0.6 V,
/// which is at most 78 m, never causes that.
///
/// ```
/// assert_eq!(vcp::crest_length(80, 600, 130, 10_800, 6_000), Ok(156));
/// // Here the object is seen over a plain break in grade too, and 0.6 V decides: 48, 30, and 30.6 up to the next even one.
/// assert_eq!(vcp::crest_length(80, 253, 130, 10_800, 6_000), Ok(48));
/// assert_eq!(vcp::crest_length(50, 253, 130, 10_800, 6_000), Ok(30));
/// assert_eq!(vcp::crest_length(51, 253, 130, 10_800, 6_000), Ok(32));
///
/// let refusal = vcp::crest_length(80, 3_000, 800, 10_800, 6_000).unwrap_err();
/// assert_eq!(refusal.number(), 18);
/// assert_eq!(vcp::crest_length(131, 0, 800, 10_800, 6_000).unwrap_err().number(), 6);
/// ```
pub fn crest_length(speed: u32, drop: u32, sight: u32, eye: u32, object: u32) -> Result<u32, Refusal> {
    // SAFETY: it takes any five numbers and touches no memory of the caller.
    refusal::answer(unsafe { vcp_crest_length(speed, drop, sight, eye, object) }.into())
}

/// Writes the mark of each station of a road file's road, from station 0 on, and answers how many stations there are. Places
/// beyond those stay as they were. The file is of version 1 or 2, and its road has at most 8,000 m, also in version 2: marks of
/// [`MOST_STATIONS`] places are enough for any. The call needs about 35 KiB of the thread's stack.
///
/// The distances are those on the least of the road's grades, the first one included, or on grade 0 if none is negative.
///
/// The bits of a mark, each beside its letter in a listing:
///
/// | Bit | Letter | Constant |
/// |---|---|---|
/// | 0 | S | [`STOPPING_LACKING`] |
/// | 1 | D | [`DECISION_LACKING`] |
/// | 2 | R | [`REDUCED_DECISION`] |
/// | 3 | s | [`STOPPING_NOT_JUDGED`] |
/// | 4 | d | [`DECISION_NOT_JUDGED`] |
///
/// # Errors
/// Refused 1 to 13 and 25 as reading the file refuses it, 8 also for a road of version 2 over 8,000 m, then 14 if the marks have
/// fewer places than the road has stations. The marks are then as they were.
///
/// ```
/// // 20 km/h, decision A, 300 m; from height 0 it rises by 15 %, and behind a crest from station 99 to 101 it falls by 15 %.
/// let file = [
///     0x56, 0x43, 0x50, 0x01, 0x00, 0x14, 0x01, 0x2C, 0x01, 0x00, 0x00, 0x00, 0x00, 0xDC, 0x05, 0x01,
///     0x64, 0x00, 0x02, 0x00, 0x24, 0xFA,
/// ];
/// let mut marks = [0; 301];
/// assert_eq!(vcp::mark_road_file(&file, &mut marks), Ok(301));
///
/// let stations = |bit: u8| (0..301).filter(|&station| marks[station] & bit != 0).collect::<Vec<_>>();
/// assert_eq!(stations(vcp::STOPPING_LACKING), (78..=95).collect::<Vec<_>>());
/// assert_eq!(stations(vcp::DECISION_LACKING), (78..=95).collect::<Vec<_>>());
/// assert!(stations(vcp::REDUCED_DECISION).is_empty());
/// assert_eq!(stations(vcp::STOPPING_NOT_JUDGED), (276..=300).collect::<Vec<_>>());
/// assert_eq!(stations(vcp::DECISION_NOT_JUDGED), (276..=300).collect::<Vec<_>>());
///
/// // One place too few, and a byte that is missing.
/// assert_eq!(vcp::mark_road_file(&file, &mut marks[..300]).unwrap_err().number(), 14);
/// assert_eq!(vcp::mark_road_file(&file[..21], &mut marks).unwrap_err().number(), 5);
/// ```
///
/// The same road as a file of version 2, which has four bytes for the road's length and for the curve's place:
///
/// ```
/// let mut file = [
///     0x56, 0x43, 0x50, 0x02, 0x00, 0x14, 0x01, 0x2C, 0x01, 0x00, 0x00, 0x00, 0x00, 0x00, 0x00, 0xDC, 0x05, 0x01,
///     0x64, 0x00, 0x00, 0x00, 0x02, 0x00, 0x24, 0xFA,
/// ];
/// let mut marks = [0; vcp::MOST_STATIONS];
/// assert_eq!(vcp::mark_road_file(&file, &mut marks), Ok(301));
/// let lacking = (0..301).filter(|&station| marks[station] & vcp::STOPPING_LACKING != 0);
/// assert!(lacking.eq(78..=95));
///
/// // 8,000 m are taken, and one more is not.
/// file[7..11].copy_from_slice(&8_000_u32.to_le_bytes());
/// assert_eq!(vcp::mark_road_file(&file, &mut marks), Ok(8_001));
/// file[7..11].copy_from_slice(&8_001_u32.to_le_bytes());
/// assert_eq!(vcp::mark_road_file(&file, &mut marks).unwrap_err().number(), 8);
/// ```
pub fn mark_road_file(file: &[u8], marks: &mut [u8]) -> Result<u32, Refusal> {
    // SAFETY: each pointer is that of a slice and comes with the slice's own length, so it is not null, and all its bytes
    // are there and are at most isize::MAX. It reads `file` and writes `marks`; a mutable borrow overlaps no other. It
    // keeps neither pointer.
    refusal::answer(unsafe { vcp_mark_road_file(file.as_ptr(), file.len(), marks.as_mut_ptr(), marks.len()) }.into())
}

// The README's example compiles.
#[cfg(doctest)]
#[doc = include_str!("../../../README.md")]
struct Readme;
