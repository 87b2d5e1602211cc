//! docs/RULES.md, "The road and its heights", and the refusals of a road handed over as a value.

use super::distances::required_distance;
use super::fraction::Fraction;
use super::Answer;

/// The greatest length in metres of a road of version 1, and of any that the lister, the preview and the van's marking take.
pub const GREATEST_SHORT_ROAD: u32 = 8_000;

/// The greatest length in metres of a road of version 2, for all other operations.
pub const GREATEST_LONG_ROAD: u32 = 100_000;

#[derive(Clone, Copy, Debug, PartialEq)]
pub struct Curve {
    pub pvi: u32,
    pub length: u16,
    pub grade_out: i16,
}

/// A road as a value. Its number of curves is that of the list, which holds no unused places.
#[derive(Clone, Debug, PartialEq)]
pub struct Road {
    pub version: u16,
    pub speed: u8,
    pub purpose: u8,
    pub length: u32,
    pub start_height: i32,
    pub first_grade: i16,
    pub curves: Vec<Curve>,
}

impl Curve {
    /// PVI − L/2, which is negative where the curve begins before the road.
    pub fn begin(&self) -> i64 {
        i64::from(self.pvi) - i64::from(self.length) / 2
    }

    /// PVI + L/2.
    pub fn end(&self) -> i64 {
        i64::from(self.pvi) + i64::from(self.length) / 2
    }
}

/// Refusals 3, 4, 6 to 13 and 25, in the rules' order.
pub fn verdict(road: &Road) -> Result<(), u32> {
    verdict_up_to(GREATEST_LONG_ROAD, road)
}

/// The same for an operation that takes no road over so many metres, whatever its version is.
pub fn verdict_up_to(most: u32, road: &Road) -> Result<(), u32> {
    let of_version = match road.version {
        1 => GREATEST_SHORT_ROAD,
        2 => GREATEST_LONG_ROAD,
        _ => return Err(3),
    };
    if road.curves.len() > 32 {
        return Err(4);
    }
    if !(20..=130).contains(&road.speed) {
        return Err(6);
    }
    if !(1..=5).contains(&road.purpose) {
        return Err(7);
    }
    if !(1..=of_version.min(most)).contains(&road.length) {
        return Err(8);
    }
    if !(-10_000_000..=90_000_000).contains(&road.start_height) {
        return Err(9);
    }
    if !grade_in_range(road.first_grade) {
        return Err(10);
    }
    curves_verdict(road)
}

fn grade_in_range(grade: i16) -> bool {
    (-1_500..=1_500).contains(&grade)
}

/// Refusals 10 to 13 and 25 of the curves: the lowest curve with a fault decides.
fn curves_verdict(road: &Road) -> Result<(), u32> {
    let mut grade_in = road.first_grade;
    for (place, curve) in road.curves.iter().enumerate() {
        if !grade_in_range(curve.grade_out) {
            return Err(10);
        }
        if curve.length % 2 == 1 || curve.length > 2_000 {
            return Err(11);
        }
        if curve.begin() < 0 || curve.end() > i64::from(road.length) {
            return Err(12);
        }
        if place > 0 && curve.begin() < road.curves[place - 1].end() {
            return Err(13);
        }
        if curve.length == 0 && grade_in.abs_diff(curve.grade_out) > 50 {
            return Err(25);
        }
        grade_in = curve.grade_out;
    }
    Ok(())
}

/// The grade that a road is marked with: the least of its grades, the first one included, or 0 if none is negative.
pub fn marking_grade(road: &Road) -> i32 {
    let grades = [road.first_grade].into_iter().chain(road.curves.iter().map(|curve| curve.grade_out));
    grades.filter(|&grade| grade < 0).min().unwrap_or(0).into()
}

/// The distances that an accepted road requires for stopping and for its own decision, on the grade that it is marked with.
pub fn required_distances(road: &Road) -> [u32; 2] {
    let required = |purpose: u8| required_distance(road.speed.into(), purpose.into(), marking_grade(road));
    [0, road.purpose].map(|purpose| required(purpose).expect("the road is accepted"))
}

/// d metres after a curve's begin: begin height + (grade in) d + (grade out − grade in) d² / (2L).
fn on_curve(begin_height: i128, grade_in: i128, grade_out: i128, length: i128, d: i128) -> Fraction {
    Fraction::whole(begin_height + grade_in * d) + Fraction::new((grade_out - grade_in) * d * d, 2 * length)
}

/// The exact height of an accepted road at one of its stations.
pub fn exact_height(road: &Road, station: u32) -> Fraction {
    let station = i128::from(station);
    // Where the straight begins that the profile is on, its height there, and the grade.
    let mut from = 0;
    let mut height = i128::from(road.start_height);
    let mut grade = i128::from(road.first_grade);
    for curve in &road.curves {
        let [begin, end] = [curve.begin(), curve.end()].map(i128::from);
        if station <= begin {
            break;
        }
        let begin_height = height + grade * (begin - from);
        let [length, grade_out] = [curve.length.into(), curve.grade_out.into()];
        if station < end {
            return on_curve(begin_height, grade, grade_out, length, station - begin);
        }
        height = begin_height;
        if length > 0 {
            let end_height = on_curve(begin_height, grade, grade_out, length, length);
            height = end_height.floor();
            assert!(end_height == Fraction::whole(height), "at a curve's end the exact height is whole: {road:?}");
        }
        from = end;
        grade = grade_out;
    }
    Fraction::whole(height + grade * (station - from))
}

/// The exact heights of an accepted road at stations 0 to N.
pub fn exact_heights(road: &Road) -> Vec<Fraction> {
    (0..=road.length).map(|station| exact_height(road, station)).collect()
}

/// The whole number at or next below the exact height.
pub fn stored_height(road: &Road, station: u32) -> i32 {
    let height = exact_height(road, station).floor();
    i32::try_from(height).expect("a stored height of an accepted road fits 32 bits")
}

pub fn heights(road: &Road, list: &mut [i32]) -> Answer {
    verdict(road)?;
    let stations = road.length + 1;
    if list.len() < stations as usize {
        return Err(14);
    }
    for (station, place) in (0..stations).zip(list) {
        *place = stored_height(road, station);
    }
    Ok(stations)
}
