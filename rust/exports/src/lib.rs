//! The proved operations that the van does not call, safe to call from the command `vcp` and from the tests: the functions
//! of the crates `curve_exports`, `sight_exports`, `engine_exports`, `marks_exports`, `passing_exports`, `file_exports`,
//! `road_exports`, `preview_exports`, `listing_exports`, `conversion_exports` and `mirror_exports`.
//!
//! Units are those of docs/RULES.md: metres along the road, h-units (tenths of a millimetre) for heights, hundredths of a
//! percent for grades, uphill positive, and km/h; those of passing stand at [`Manoeuvre`].
//!
//! Each function takes any input and ends: it answers, or refuses by one of the numbers of docs/RULES.md, and a refusal leaves a
//! lent list as it was. A list that is filled has the answer as the number of places that were written, but for [`preview`], which
//! says what it answers; later places stay.

#![deny(missing_docs)]

pub use refusal::Refusal;

/// So many bytes of a road file are enough: the longest has one fewer, and of a longer one no more is needed.
pub const ENOUGH_BYTES: usize = 275;

/// Bytes that hold any listing.
pub const GREATEST_LISTING: usize = 280_092;

/// The longest list of heights or marks.
pub const GREATEST_LIST: usize = 100_001;

/// The stations of the longest road of version 2.
pub const LONG_STATIONS: usize = 100_001;

/// The stations of the longest road of version 1, and of any that the listing, the preview and the van's marking take.
pub const SHORT_STATIONS: usize = 8_001;

/// The farthest distance that is looked at, in metres.
pub const GREATEST_FARTHEST: u32 = 8_000;

/// Numbers that hold the ends of all zones of any list of marks: between two zones there is a station of neither.
pub const MOST_ENDS: usize = GREATEST_LIST + 1;

/// The least speed that is accepted, in km/h.
pub const LEAST_SPEED: u32 = 20;

/// The greatest speed that is accepted, in km/h.
pub const GREATEST_SPEED: u32 = 130;

/// The height of the eye that roads are marked with, 1.08 m.
pub const EYE_HEIGHT: u32 = 10_800;

/// The height of the object that roads are marked with, 0.60 m.
pub const OBJECT_HEIGHT: u32 = 6_000;

/// The height of what has to be seen of an oncoming car before one passes, 1.08 m.
pub const PASSING_OBJECT_HEIGHT: u32 = 10_800;

/// The bit of a passing mark that says: passing judged and lacking.
pub const PASSING_LACKING_BIT: u32 = 5;

/// The bit of a passing mark that says: passing not judged.
pub const PASSING_NOT_JUDGED_BIT: u32 = 6;

// A test compares these declarations with the crates' src/lib.rt.
extern "C" {
    fn vcp_sag_length(speed: u32, rise: u32, sight: u32) -> i64;
    fn vcp_sight(
        heights: *const i32,
        heights_length: usize,
        back: bool,
        station: u32,
        eye: u32,
        object: u32,
        farthest: u32,
    ) -> i64;
    fn vcp_sight_profile(
        heights: *const i32,
        heights_length: usize,
        back: bool,
        eye: u32,
        object: u32,
        farthest: u32,
        sights: *mut u16,
        sights_length: usize,
    ) -> i64;
    fn vcp_slow_sight(
        heights: *const i32,
        heights_length: usize,
        back: bool,
        station: u32,
        eye: u32,
        object: u32,
        farthest: u32,
    ) -> i64;
    fn vcp_slow_sight_profile(
        heights: *const i32,
        heights_length: usize,
        back: bool,
        eye: u32,
        object: u32,
        farthest: u32,
        sights: *mut u16,
        sights_length: usize,
    ) -> i64;
    fn vcp_sight_comparisons(
        heights: *const i32,
        heights_length: usize,
        back: bool,
        station: u32,
        eye: u32,
        object: u32,
        farthest: u32,
    ) -> i64;
    fn vcp_marks(
        speed: u32,
        purpose: u32,
        grade: i32,
        heights: *const i32,
        heights_length: usize,
        back: bool,
        list: *mut u8,
        list_length: usize,
    ) -> i64;
    fn vcp_driven_distance(speed: u32, purpose: u32, grade: i32, back: bool) -> i64;
    fn vcp_passing_distance(t1: u32, a: u32, v: u32, m: u32, t2: u32, d3: u32) -> i64;
    fn vcp_passing_marks(
        heights: *const i32,
        heights_length: usize,
        distance: u32,
        list: *mut u8,
        list_length: usize,
    ) -> i64;
    fn vcp_zones(marks: *const u8, marks_length: usize, bit: u32, list: *mut u32, list_length: usize) -> i64;
    fn vcp_rewrite(file: *const u8, file_length: usize, out: *mut u8, out_length: usize) -> i64;
    fn vcp_file_heights(file: *const u8, file_length: usize, list: *mut i32, list_length: usize) -> i64;
    fn vcp_file_downgrade(file: *const u8, file_length: usize, back: bool) -> i64;
    fn vcp_mark_file(file: *const u8, file_length: usize, back: bool, marks: *mut u8, marks_length: usize) -> i64;
    fn vcp_file_distance(file: *const u8, file_length: usize, back: bool, purpose: u32) -> i64;
    fn vcp_short_stations(file: *const u8, file_length: usize) -> i64;
    fn vcp_change_length(
        file: *const u8,
        file_length: usize,
        place: u32,
        length: u32,
        out: *mut u8,
        out_length: usize,
    ) -> i64;
    fn vcp_preview(
        file: *const u8,
        file_length: usize,
        place: u32,
        length: u32,
        before: *mut u8,
        before_length: usize,
        after: *mut u8,
        after_length: usize,
    ) -> i64;
    fn vcp_list_road_file(file: *const u8, file_length: usize, text: *mut u8, text_length: usize) -> i64;
    fn vcp_convert(file: *const u8, file_length: usize, out: *mut u8, out_length: usize) -> i64;
    fn vcp_mirror(file: *const u8, file_length: usize, out: *mut u8, out_length: usize) -> i64;
}

/// The least even length in metres of a sag in which headlights reach a sight distance in metres, and which is at least 0.6 V
/// metres for the speed V in km/h. The rise in grade is in hundredths of a percent.
///
/// # Errors
/// Refused 6 if the speed is not 20 to 130, then 15 if the rise is not 1 to 3,000, then 16 if the sight distance is not 1 to
/// 800, then 18 if the headlights reach so far in no even length up to 2,000 m: 0.6 V, which is at most 78 m, never causes that.
pub fn sag_length(speed: u32, rise: u32, sight: u32) -> Result<u32, Refusal> {
    // SAFETY: it takes any three numbers and touches no memory of the caller.
    refusal::answer(unsafe { vcp_sag_length(speed, rise, sight) })
}

/// The way that a driver goes and looks.
#[derive(Clone, Copy, Debug, PartialEq, Eq)]
pub enum Direction {
    /// Towards rising stations, as the road is measured.
    Rising,
    /// Towards falling stations: the lane coming back.
    Falling,
}

impl Direction {
    /// As the proved functions take it.
    fn is_back(self) -> bool {
        self == Direction::Falling
    }
}

/// The heights of eye and object above the road, and the farthest distance that is looked at.
#[derive(Clone, Copy, Debug, PartialEq, Eq)]
pub struct Look {
    /// The height of the eye.
    pub eye: u32,
    /// The height of the object.
    pub object: u32,
    /// The farthest distance.
    pub farthest: u32,
}

/// The available sight from a station over these heights, in a direction: towards falling stations it is that of the other
/// direction with the stations counted from the other end.
///
/// # Errors
/// Refused 19 if the list is empty or longer than [`GREATEST_LIST`], 20 if the station is beyond the last, 17 if either
/// height is not 1 to 50,000, 21 if the farthest distance is not 1 to [`GREATEST_FARTHEST`].
pub fn sight(heights: &[i32], direction: Direction, station: u32, look: Look) -> Result<u32, Refusal> {
    let Look { eye, object, farthest } = look;
    // SAFETY: the pointer is that of a slice and comes with its length; nothing is written or kept.
    refusal::answer(unsafe {
        vcp_sight(heights.as_ptr(), heights.len(), direction.is_back(), station, eye, object, farthest)
    })
}

/// Fills the available sight from each station over these heights, in a direction. The first place is that of station 0 in either.
///
/// # Errors
/// Refused 19, 17, 21 as [`sight`] is, then 14 if the list of sights is shorter than the heights.
pub fn sight_profile(heights: &[i32], direction: Direction, look: Look, sights: &mut [u16]) -> Result<u32, Refusal> {
    let Look { eye, object, farthest } = look;
    // SAFETY: each pointer is that of a slice and comes with its length; a mutable borrow overlaps no other; neither is kept.
    refusal::answer(unsafe {
        vcp_sight_profile(
            heights.as_ptr(),
            heights.len(),
            direction.is_back(),
            eye,
            object,
            farthest,
            sights.as_mut_ptr(),
            sights.len(),
        )
    })
}

/// The same as [`sight`], worked out the slow way, which anyone can follow: for each object station up to the first hidden one,
/// every station between is looked at, and nothing is remembered from one to the next. The answer is the same, refusals included;
/// the time is not. It grows with the square of the sight, where that of [`sight`] grows with the sight.
///
/// # Errors
/// Refused as [`sight`] is.
pub fn slow_sight(heights: &[i32], direction: Direction, station: u32, look: Look) -> Result<u32, Refusal> {
    let Look { eye, object, farthest } = look;
    // SAFETY: as for `sight`.
    refusal::answer(unsafe {
        vcp_slow_sight(heights.as_ptr(), heights.len(), direction.is_back(), station, eye, object, farthest)
    })
}

/// The same as [`sight_profile`], each sight worked out as [`slow_sight`] does. The answer and the list are the same, the time is
/// not: 8,000 m of a level road take minutes where the farthest distance is 8,000.
///
/// # Errors
/// Refused as [`sight_profile`] is.
pub fn slow_sight_profile(
    heights: &[i32],
    direction: Direction,
    look: Look,
    sights: &mut [u16],
) -> Result<u32, Refusal> {
    let Look { eye, object, farthest } = look;
    // SAFETY: as for `sight_profile`.
    refusal::answer(unsafe {
        vcp_slow_sight_profile(
            heights.as_ptr(),
            heights.len(),
            direction.is_back(),
            eye,
            object,
            farthest,
            sights.as_mut_ptr(),
            sights.len(),
        )
    })
}

/// How many sight lines [`sight`] compares from a station: at most two for each object station that it tries, which are those that
/// are seen and the first hidden one, where there is one.
///
/// # Errors
/// Refused as [`sight`] is.
pub fn sight_comparisons(heights: &[i32], direction: Direction, station: u32, look: Look) -> Result<u32, Refusal> {
    let Look { eye, object, farthest } = look;
    // SAFETY: as for `sight`.
    refusal::answer(unsafe {
        vcp_sight_comparisons(heights.as_ptr(), heights.len(), direction.is_back(), station, eye, object, farthest)
    })
}

/// Marks each station of these heights for a driver in a direction, for a speed and a decision purpose, by the distances on a
/// grade. The grade is that of rising stations in either direction: whoever drives towards falling ones drives down what rises.
/// `vcp::mark_road_file` says what the bits mean; towards falling stations a distance is not judged where it does not fit before
/// station 0.
///
/// # Errors
/// Refused 6 if the speed is not 20 to 130, 7 if the purpose is not 1 to 5, 10 if the grade is not -1,500 to 1,500, 19 if
/// the heights are none or more than [`GREATEST_LIST`], 14 if the list of marks is shorter than the heights.
pub fn marks(
    speed: u32,
    purpose: u32,
    grade: i32,
    heights: &[i32],
    direction: Direction,
    list: &mut [u8],
) -> Result<u32, Refusal> {
    // SAFETY: as for `sight_profile`.
    refusal::answer(unsafe {
        vcp_marks(
            speed,
            purpose,
            grade,
            heights.as_ptr(),
            heights.len(),
            direction.is_back(),
            list.as_mut_ptr(),
            list.len(),
        )
    })
}

/// The distance in metres that a driver in a direction needs for a purpose. The grade is that of rising stations in either direction;
/// [`marks`] are taken with these distances.
///
/// # Errors
/// Refused 6 if the speed is not 20 to 130, 7 if the purpose is not 0 to 5, 10 if the grade is not -1,500 to 1,500.
pub fn driven_distance(speed: u32, purpose: u32, grade: i32, direction: Direction) -> Result<u32, Refusal> {
    // SAFETY: it takes any four values and touches no memory of the caller.
    refusal::answer(unsafe { vcp_driven_distance(speed, purpose, grade, direction.is_back()) })
}

/// How a car passes another on a two-lane road, by the names of AASHTO's formula.
#[derive(Clone, Copy, Debug, PartialEq, Eq)]
pub struct Manoeuvre {
    /// The time of the initial manoeuvre, in tenths of a second.
    pub t1: u32,
    /// The average acceleration, in hundredths of km/h per second.
    pub a: u32,
    /// The average speed of the passing car, in tenths of km/h.
    pub v: u32,
    /// The difference in speed of the two cars, in tenths of km/h.
    pub m: u32,
    /// The time in the left lane, in tenths of a second.
    pub t2: u32,
    /// The distance to the oncoming car at the end, in metres.
    pub d3: u32,
}

/// The distance in metres that a driver needs to see to pass another car.
///
/// # Errors
/// Refused 24 if t1 is not 36 to 45, a not 225 to 241, v not 300 to 1,300, m not 100 to 200, t2 not 93 to 113 or d3 not 30 to 90.
pub fn passing_distance(manoeuvre: Manoeuvre) -> Result<u32, Refusal> {
    let Manoeuvre { t1, a, v, m, t2, d3 } = manoeuvre;
    // SAFETY: it takes any six numbers and touches no memory of the caller.
    refusal::answer(unsafe { vcp_passing_distance(t1, a, v, m, t2, d3) })
}

/// Marks each station of these heights for a passing distance in metres, towards rising stations alone, with the eye at
/// [`EYE_HEIGHT`] and the object at [`PASSING_OBJECT_HEIGHT`]: the mark has the bit [`PASSING_LACKING_BIT`] where passing is judged
/// and sight lacks, [`PASSING_NOT_JUDGED_BIT`] where the road ends before the distance does, and no other.
///
/// # Errors
/// Refused 19 if the heights are none or more than [`GREATEST_LIST`], 21 if the distance is not 1 to [`GREATEST_FARTHEST`], 14 if
/// the list of marks is shorter than the heights.
pub fn passing_marks(heights: &[i32], distance: u32, list: &mut [u8]) -> Result<u32, Refusal> {
    // SAFETY: as for `sight_profile`.
    refusal::answer(unsafe {
        vcp_passing_marks(heights.as_ptr(), heights.len(), distance, list.as_mut_ptr(), list.len())
    })
}

/// Writes the first and the last station of each zone of a bit of the marks, in pairs, and answers how many zones there are.
/// A list of [`MOST_ENDS`] numbers holds them all.
///
/// # Errors
/// Refused 22 if the bit number is over 6, 19 if the marks are none or more than [`GREATEST_LIST`], 23 if the list holds
/// fewer than two numbers for each zone.
pub fn zones(marks: &[u8], bit: u32, list: &mut [u32]) -> Result<u32, Refusal> {
    // SAFETY: as for `sight_profile`.
    refusal::answer(unsafe { vcp_zones(marks.as_ptr(), marks.len(), bit, list.as_mut_ptr(), list.len()) })
}

/// Reads a road file and writes its road again: the same bytes.
///
/// # Errors
/// Refused 1 to 13 and 25 as reading the file refuses it, then 14 if the buffer is too short.
pub fn rewrite(file: &[u8], out: &mut [u8]) -> Result<u32, Refusal> {
    // SAFETY: as for `sight_profile`.
    refusal::answer(unsafe { vcp_rewrite(file.as_ptr(), file.len(), out.as_mut_ptr(), out.len()) })
}

/// Reads a road file and fills the heights of its road, one a station. A list of [`LONG_STATIONS`] holds any road's.
///
/// # Errors
/// Refused 1 to 13 and 25 as reading the file refuses it, then 14 if the list has fewer places than the road has stations.
pub fn file_heights(file: &[u8], list: &mut [i32]) -> Result<u32, Refusal> {
    // SAFETY: as for `sight_profile`.
    refusal::answer(unsafe { vcp_file_heights(file.as_ptr(), file.len(), list.as_mut_ptr(), list.len()) })
}

/// Reads a road file and answers the grade that its road is marked with in a direction, as for rising stations: towards rising
/// ones the least of the road's grades, the first one included, or 0 if none is negative; towards falling ones the greatest, or 0
/// if none is positive.
///
/// # Errors
/// Refused 1 to 13 and 25 as reading the file refuses it.
pub fn file_grade(file: &[u8], direction: Direction) -> Result<i32, Refusal> {
    // SAFETY: as for `sight`.
    let downgrade = refusal::answer(unsafe { vcp_file_downgrade(file.as_ptr(), file.len(), direction.is_back()) })?;
    // The proved function answers the steepest downgrade as it is driven, without its sign: a negative answer would be a refusal.
    let downgrade = downgrade as i32;
    Ok(match direction {
        Direction::Rising => -downgrade,
        Direction::Falling => downgrade,
    })
}

/// Reads a road file of either version and writes the mark of each station of its road for a driver in a direction, from station
/// 0 on in either; answers how many stations there are. [`marks`] says what the bits mean; `vcp::mark_road_file` takes no road over
/// 8,000 m. A list of [`LONG_STATIONS`] holds any road's. The call needs about 400 KiB of the thread's stack.
///
/// # Errors
/// Refused 1 to 13 and 25 as reading the file refuses it, then 14 if the list has fewer places than the road has stations.
pub fn mark_file(file: &[u8], direction: Direction, marks: &mut [u8]) -> Result<u32, Refusal> {
    // SAFETY: as for `sight_profile`.
    refusal::answer(unsafe {
        vcp_mark_file(file.as_ptr(), file.len(), direction.is_back(), marks.as_mut_ptr(), marks.len())
    })
}

/// Reads a road file of either version and answers the distance in metres that its road needs for a purpose, at its own speed and
/// on the grade that it is marked with in a direction. `vcp::required_distance` says what the purposes are.
///
/// # Errors
/// Refused 1 to 13 and 25 as reading the file refuses it, then 7 if the purpose is not 0 to 5.
pub fn file_distance(file: &[u8], direction: Direction, purpose: u32) -> Result<u32, Refusal> {
    // SAFETY: as for `sight`.
    refusal::answer(unsafe { vcp_file_distance(file.as_ptr(), file.len(), direction.is_back(), purpose) })
}

/// Reads a road file as the listing, the preview and the van's marking do, and answers how many stations its road has.
///
/// # Errors
/// Refused 1 to 13 and 25 as these refuse it: as reading does, but for 8, which they give to every road over 8,000 m.
pub fn short_stations(file: &[u8]) -> Result<u32, Refusal> {
    // SAFETY: as for `sight`.
    refusal::answer(unsafe { vcp_short_stations(file.as_ptr(), file.len()) })
}

/// Reads a road file and writes the file of its road with another length, in metres, of the curve at a place, counted from 0. A
/// buffer of as many bytes as the file has holds it.
///
/// # Errors
/// Refused 1 to 13 and 25 as reading the file refuses it, 26 if the place is beyond the last curve, 11 to 13 and 25 as the changed
/// road is refused, then 14 if the buffer is too short.
pub fn change_length(file: &[u8], place: u32, length: u32, out: &mut [u8]) -> Result<u32, Refusal> {
    // SAFETY: as for `sight_profile`.
    refusal::answer(unsafe { vcp_change_length(file.as_ptr(), file.len(), place, length, out.as_mut_ptr(), out.len()) })
}

/// Reads a road file, marks its road into the first list, and into the second the road with another length, in metres, of the
/// curve at a place, counted from 0; answers at how many stations the two differ. `vcp::mark_road_file` says what the bits mean.
/// Each list has a mark for each station at its front, and what is behind stays; a list of [`SHORT_STATIONS`] holds those of any
/// road that is taken. The call needs about 35 KiB of the thread's stack.
///
/// # Errors
/// Refused 1 to 13 and 25 as [`short_stations`] is, 26 if the place is beyond the last curve, 11 to 13 and 25 as the changed
/// road is refused, then 14 if either list has fewer places than the road has stations. Then both lists are what they were.
pub fn preview(file: &[u8], place: u32, length: u32, before: &mut [u8], after: &mut [u8]) -> Result<u32, Refusal> {
    // SAFETY: as for `sight_profile`; the two mutable borrows do not overlap.
    refusal::answer(unsafe {
        vcp_preview(
            file.as_ptr(),
            file.len(),
            place,
            length,
            before.as_mut_ptr(),
            before.len(),
            after.as_mut_ptr(),
            after.len(),
        )
    })
}

/// Writes the listing of a road file, for a refused one the line of its refusal. A buffer of [`GREATEST_LISTING`] bytes holds
/// any. The call needs about 320 KiB of the thread's stack.
///
/// # Errors
/// Refused 14 if the buffer is too short.
pub fn list_road_file(file: &[u8], text: &mut [u8]) -> Result<u32, Refusal> {
    // SAFETY: as for `sight_profile`.
    refusal::answer(unsafe { vcp_list_road_file(file.as_ptr(), file.len(), text.as_mut_ptr(), text.len()) })
}

/// Reads a road file of either version and writes the file of the other, with the same road apart from its version. Converting that
/// gives the first file's bytes again. A buffer of [`ENOUGH_BYTES`] holds any file.
///
/// # Errors
/// Refused 1 to 13 and 25 as reading the file refuses it, 27 if it is of version 2 and its road is over 8,000 m, then 14 if the
/// buffer is too short.
pub fn convert(file: &[u8], out: &mut [u8]) -> Result<u32, Refusal> {
    // SAFETY: as for `sight_profile`.
    refusal::answer(unsafe { vcp_convert(file.as_ptr(), file.len(), out.as_mut_ptr(), out.len()) })
}

/// Reads a road file and writes the file of its mirror, which is the road with the stations counted from the other end: it starts
/// at the road's end height, the curves are in reverse order, each PVI is counted from the road's end, and all grades are in reverse
/// order with the sign changed. The marks of either towards falling stations are those of the other towards rising ones, in reverse
/// order. A buffer of as many bytes as the file has holds it. The call needs about 400 KiB of the thread's stack.
///
/// # Errors
/// Refused 1 to 13 and 25 as reading the file refuses it, 9 if the road ends at a height that no road may start at, then 14 if the
/// buffer is too short.
pub fn mirror(file: &[u8], out: &mut [u8]) -> Result<u32, Refusal> {
    // SAFETY: as for `sight_profile`.
    refusal::answer(unsafe { vcp_mirror(file.as_ptr(), file.len(), out.as_mut_ptr(), out.len()) })
}
