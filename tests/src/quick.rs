//! What `make bench` measures the proved functions against, and what the marks of long roads are compared with: the same quick
//! calculations as one writes them in safe Rust, and the literal rule of sight.

use crate::reference::crest::Crest;
use crate::reference::file::{read, read_short};
use crate::reference::marks::{EYE, OBJECT};
use crate::reference::road::{marking_grade, Road};
use crate::reference::sight::{available_sight, whole_heights, Look};
use crate::reference::Answer;

/// A purpose's reaction time in tenths of a second, and whether the braking term counts.
const PURPOSES: [(u64, bool); 6] = [(25, true), (30, true), (91, true), (112, false), (129, false), (145, false)];

/// The distance that an accepted speed, purpose and grade g require: (4,726 V t + 1,950 V²) / 850,000 fives of metres where g
/// is 0, else (17,653 V t b + 24,525,000,000 V²) / (3,175,000 b) with b = 3,400,000 + 981 g, rounded up.
fn metres_for(speed: u8, purpose: u8, grade: i32) -> usize {
    let (tenths, braking) = PURPOSES[usize::from(purpose)];
    let speed = u64::from(speed);
    let fives = match (braking, grade) {
        (false, _) => (4_726 * speed * tenths).div_ceil(850_000),
        (true, 0) => (4_726 * speed * tenths + 1_950 * speed * speed).div_ceil(850_000),
        (true, _) => {
            let b = (3_400_000 + 981 * grade) as u64;
            (17_653 * speed * tenths * b + 24_525_000_000 * speed * speed).div_ceil(3_175_000 * b)
        }
    };
    5 * fives as usize
}

/// The required distance.
pub fn required_distance(speed: u32, purpose: u32, grade: i32) -> Answer {
    if !(20..=130).contains(&speed) {
        return Err(6);
    }
    if purpose > 5 {
        return Err(7);
    }
    if !(-1_500..=1_500).contains(&grade) {
        return Err(10);
    }
    Ok(metres_for(speed as u8, purpose as u8, grade) as u32)
}

/// The stored heights of an accepted road, straight by straight and curve by curve.
fn heights(road: &Road) -> Vec<i32> {
    let mut heights = Vec::with_capacity(road.length as usize + 1);
    let (mut station, mut height, mut grade) = (0, i64::from(road.start_height), i64::from(road.first_grade));
    for curve in &road.curves {
        let straight = curve.begin() - station;
        heights.extend((0..straight).map(|d| (height + grade * d) as i32));
        height += grade * straight;
        let (length, turn) = (i64::from(curve.length), i64::from(curve.grade_out) - grade);
        heights.extend((0..length).map(|d| (height + grade * d + (turn * d * d).div_euclid(2 * length)) as i32));
        height += (2 * grade + turn) * length / 2;
        grade += turn;
        station = curve.end();
    }
    heights.extend((0..=i64::from(road.length) - station).map(|d| (height + grade * d) as i32));
    heights
}

/// The available sight from station i, by one search that keeps the steepest line from the eye to the road so far.
fn sight(heights: &[i32], i: usize, farthest: usize) -> usize {
    let eye = i64::from(heights[i]) + i64::from(EYE);
    let ahead = &heights[i + 1..];
    let ahead = &ahead[..farthest.min(ahead.len())];
    let Some((&first, others)) = ahead.split_first() else { return 0 };
    let (mut rise, mut run) = (i64::from(first) - eye, 1);
    for (metres, &height) in (2..).zip(others) {
        let road = i64::from(height) - eye;
        let line = rise * metres;
        if line <= road * run {
            (rise, run) = (road, metres);
        } else if (road + i64::from(OBJECT)) * run < line {
            return metres as usize - 1;
        }
    }
    ahead.len()
}

/// Writes the mark of each station, with one look at its sight: up to the larger distance, and none where neither distance
/// is judged. Refused 14 if the list has no place for each station.
fn write_marks(road: &Road, list: &mut [u8], sight: impl Fn(usize, usize) -> usize) -> Answer {
    let stations = road.length as usize + 1;
    if list.len() < stations {
        return Err(14);
    }
    let grade = marking_grade(road);
    let stopping = metres_for(road.speed, 0, grade);
    let decision = metres_for(road.speed, road.purpose, grade);
    let farthest = stopping.max(decision);
    for (i, place) in list[..stations].iter_mut().enumerate() {
        let stop = i + stopping < stations;
        let decide = i + decision < stations;
        let sight = if stop || decide { sight(i, farthest) } else { 0 };
        let lacks_stop = stop && sight < stopping;
        let lacks_decision = decide && sight < decision;
        let reduced = lacks_decision && stop && !lacks_stop;
        *place = u8::from(lacks_stop)
            | u8::from(lacks_decision) << 1
            | u8::from(reduced) << 2
            | u8::from(!stop) << 3
            | u8::from(!decide) << 4;
    }
    Ok(stations as u32)
}

/// Marks an accepted road.
fn mark_road(road: &Road, list: &mut [u8]) -> Answer {
    let heights = heights(road);
    write_marks(road, list, |i, farthest| sight(&heights, i, farthest))
}

/// Reads a road file and marks its road, as the van does.
pub fn mark_road_file(file: &[u8], list: &mut [u8]) -> Answer {
    mark_road(&read_short(file)?, list)
}

/// The same as the library does, over roads of any length.
pub fn mark_file(file: &[u8], list: &mut [u8]) -> Answer {
    mark_road(&read(file)?, list)
}

/// The van's marks by the literal rule: every station between, for every object station up to the first hidden one.
pub fn mark_road_file_literally(file: &[u8], list: &mut [u8]) -> Answer {
    let road = read_short(file)?;
    let heights = whole_heights(&heights(&road));
    let look = |farthest: usize| Look { eye: EYE, object: OBJECT, farthest: farthest as u32 };
    write_marks(&road, list, |i, farthest| available_sight(&heights, look(farthest), i))
}

/// x − y ≤ √z.
fn within_root(x: u64, y: u64, z: u64) -> bool {
    x <= y || (x - y) * (x - y) <= z
}

/// The least even length that is adequate and at least 0.6 V, by a binary search over half the length.
pub fn crest_length(crest: Crest) -> Answer {
    if !(20..=130).contains(&crest.speed) {
        return Err(6);
    }
    if !(1..=3_000).contains(&crest.drop) {
        return Err(15);
    }
    if !(1..=800).contains(&crest.sight) {
        return Err(16);
    }
    if !(1..=50_000).contains(&crest.eye) || !(1..=50_000).contains(&crest.object) {
        return Err(17);
    }
    let [v, a, s, e, o] = [crest.speed, crest.drop, crest.sight, crest.eye, crest.object].map(u64::from);
    let (without_root, radicand) = (2 * (e + o), 16 * e * o);
    let adequate = |l: u64| {
        if s <= l {
            within_root(a * s * s, l * without_root, l * l * radicand)
        } else {
            within_root(a * (2 * s - l), without_root, radicand)
        }
    };
    let (mut low, mut high) = (0, 1_001);
    while low < high {
        let half = (low + high) / 2;
        if 3 * v <= 10 * half && adequate(2 * half) {
            high = half;
        } else {
            low = half + 1;
        }
    }
    if high > 1_000 {
        return Err(18);
    }
    Ok(2 * high as u32)
}
