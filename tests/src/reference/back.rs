//! Document 02, P11, "The lane coming back": towards falling stations, counted in metres behind the driver's station and not by turning
//! a list round.

use super::distances::required_distance;
use super::file::read;
use super::marks::{byte, driver, marks_verdict, Finding};
use super::road::{stored_height, Road};
use super::sight::{fill, list_verdict, look_verdict, of_station, Height, Look};
use super::Answer;

/// From i the object d metres before it is seen: at every whole metre m between, the line clears or touches the road, which is
/// (height i + e)(d − m) + (height i − d, + o) m ≥ (height i − m) d.
pub fn seen<H: Height>(heights: &[H], look: Look, i: usize, d: usize) -> bool {
    let eye = heights[i] + H::from(look.eye);
    let object = heights[i - d] + H::from(look.object);
    let metres = |number: usize| H::from(number as u32);
    (1..d).all(|m| eye * metres(d - m) + object * metres(m) >= heights[i - m] * metres(d))
}

/// How many metres come into question: at most the farthest distance, at most those back to station 0.
fn most(look: Look, i: usize) -> usize {
    i.min(look.farthest as usize)
}

/// The available sight: how many metres back are seen before the first hidden station.
pub fn available_sight<H: Height>(heights: &[H], look: Look, i: usize) -> usize {
    let most = most(look, i);
    (1..=most).find(|&d| !seen(heights, look, i, d)).map_or(most, |hidden| hidden - 1)
}

/// How many object stations are tried: those that are seen, and the first hidden one, where there is one.
pub fn tried<H: Height>(heights: &[H], look: Look, i: usize) -> usize {
    most(look, i).min(available_sight(heights, look, i) + 1)
}

/// The comparisons of sight lines for these: one where the road itself is seen, an object of height 0, and else two.
fn comparisons<H: Height>(heights: &[H], look: Look, i: usize) -> usize {
    let road = Look { object: 0, ..look };
    let hidden = |&d: &usize| !seen(heights, road, i, d);
    let tried = tried(heights, look, i);
    tried + (1..=tried).filter(hidden).count()
}

/// Sight from one station.
pub fn sight(heights: &[i32], station: u32, look: Look) -> Answer {
    of_station(heights, station, look, available_sight)
}

/// How many sight lines the quick engine compares from one station.
pub fn sight_comparisons(heights: &[i32], station: u32, look: Look) -> Answer {
    of_station(heights, station, look, comparisons)
}

/// Place i is the sight from i.
pub fn sight_profile(heights: &[i32], look: Look, sights: &mut [u16]) -> Answer {
    list_verdict(heights.len())?;
    look_verdict(look)?;
    fill(heights, sights, |heights, i| available_sight(heights, look, i) as u16)
}

/// The verdict on a station for a distance: it is judged where the distance fits before station 0.
fn finding(heights: &[i64], i: usize, required: u32) -> Finding {
    if i < required as usize {
        Finding::NotJudged
    } else if available_sight(heights, driver(required), i) < required as usize {
        Finding::Lacking
    } else {
        Finding::There
    }
}

/// The grade is handed over as for rising stations, and refused as it is there; who comes back drives it the other way.
pub fn marks(speed: u32, purpose: u32, grade: i32, heights: &[i32], list: &mut [u8]) -> Answer {
    marks_verdict(speed, purpose, grade, heights)?;
    let driven = -grade;
    let (stopping, decision) = (required_distance(speed, 0, driven)?, required_distance(speed, purpose, driven)?);
    fill(heights, list, |heights, i| byte([stopping, decision].map(|required| finding(heights, i, required))))
}

/// The grade that a road is marked with: the greatest of its grades, the first one included, or 0 if none is positive.
pub fn marking_grade(road: &Road) -> i32 {
    let mut greatest = 0;
    for grade in [road.first_grade].into_iter().chain(road.curves.iter().map(|curve| curve.grade_out)) {
        if grade > greatest {
            greatest = grade;
        }
    }
    greatest.into()
}

/// Reads a file and marks its road.
pub fn mark_file(file: &[u8], list: &mut [u8]) -> Answer {
    let road = read(file)?;
    let heights: Vec<i32> = (0..=road.length).map(|station| stored_height(&road, station)).collect();
    marks(road.speed.into(), road.purpose.into(), marking_grade(&road), &heights, list)
}

/// Reads a file and answers the grade that its road is marked with.
pub fn file_grade(file: &[u8]) -> Result<i32, u32> {
    Ok(marking_grade(&read(file)?))
}

/// Reads a file and answers the distance that its road requires for a purpose.
pub fn file_distance(file: &[u8], purpose: u32) -> Answer {
    let road = read(file)?;
    required_distance(road.speed.into(), purpose, -marking_grade(&road))
}
