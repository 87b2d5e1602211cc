//! What a picture of a road is drawn from.

use exports::Refusal;
use picture::{Curve, Direction, Lane, Profile};

use crate::judgement::{Judgement, Passing};
use crate::tables;

/// A road's first grade, its curves, its heights, and what is judged of it.
pub struct Drawing<'a> {
    first_grade: i32,
    curves: Vec<Curve>,
    heights: Vec<i32>,
    judgement: &'a Judgement,
}

impl Drawing<'_> {
    /// That of a road file.
    pub fn of_road<'a>(file: &[u8], judgement: &'a Judgement) -> Result<Drawing<'a>, Refusal> {
        let road = roadtext::road_numbers(file)?;
        let curve = |&[pvi, length, grade_out]: &[i64; 3]| Curve {
            pvi: pvi as u32,
            length: length as u32,
            grade_out: grade_out as i32,
        };
        let [.., first_grade] = road.head;
        Ok(Drawing {
            first_grade: first_grade as i32,
            curves: road.curves.iter().map(curve).collect(),
            heights: tables::heights_of(file)?,
            judgement,
        })
    }

    /// What is handed over of it, with the one lane that is judged, and of passing.
    pub fn profile<'a>(&'a self, passing: Option<&'a Passing>) -> Profile<'a> {
        let Drawing { first_grade, ref curves, ref heights, judgement } = *self;
        Profile {
            speed: judgement.speed,
            purpose: judgement.purpose,
            lane: lane(judgement),
            other_lane: None,
            first_grade,
            curves,
            heights,
            passing: passing.map(|Passing { distance, zones, .. }| picture::Passing { distance: *distance, zones }),
        }
    }
}

/// What is handed over of the lane that is judged.
pub fn lane(judgement: &Judgement) -> Lane<'_> {
    let Judgement { direction, grade, stopping, decision, ref zones, .. } = *judgement;
    let direction = match direction {
        exports::Direction::Rising => Direction::Rising,
        exports::Direction::Falling => Direction::Falling,
    };
    Lane { direction, grade, stopping, decision, zones }
}
