//! Document 02, P11, the mirror of a road, from the road's numbers.

use super::file::{read, write};
use super::road::{stored_height, Curve, Road};
use super::Answer;

/// The mirror of an accepted road, which may be refused itself: it starts at the road's end height, with the curves in reverse order,
/// each PVI counted from N, all grades in reverse order with the sign changed, and the rest kept.
pub fn mirrored(road: &Road) -> Road {
    let mut grades = vec![road.first_grade];
    grades.extend(road.curves.iter().map(|curve| curve.grade_out));
    grades.reverse();
    let mut grades = grades.into_iter().map(|grade| -grade);
    Road {
        start_height: stored_height(road, road.length),
        first_grade: grades.next().expect("a road has a first grade"),
        curves: road.curves.iter().rev().zip(grades).map(|(curve, grade_out)| turned(road, curve, grade_out)).collect(),
        ..*road
    }
}

/// A curve of the mirror, with the grade behind it there.
fn turned(road: &Road, curve: &Curve, grade_out: i16) -> Curve {
    Curve { pvi: road.length - curve.pvi, length: curve.length, grade_out }
}

/// Reads a file and writes that of its road's mirror: refused as reading is, then as the mirror is, which is 9 or not at all, then 14.
pub fn mirror(file: &[u8], buffer: &mut [u8]) -> Answer {
    write(&mirrored(&read(file)?), buffer)
}
