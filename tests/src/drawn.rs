//! What is drawn of a road, in the numbers of the second calculation.

use std::array;

use picture::{preview, svg, Curve, Direction, Lane, Passing, Preview, Profile};

use crate::random::Random;
use crate::reference::back;
use crate::reference::distances::required_distance;
use crate::reference::marks::{marks, runs};
use crate::reference::passing::passing_marks;
use crate::reference::road::{heights, marking_grade, required_distances, verdict, Road};
use crate::reference::Answer;

/// Marks of heights by the second calculation, in a direction.
type Marks = fn(u32, u32, i32, &[i32], &mut [u8]) -> Answer;

/// The direction that an accepted road is looked along, the grade that it is marked with, the distances for stopping and for the
/// decision, the curves, the heights, the marks and the zones.
pub struct Drawn {
    pub direction: Direction,
    pub grade: i32,
    pub distances: [u32; 2],
    pub curves: Vec<Curve>,
    pub heights: Vec<i32>,
    pub marks: Vec<u8>,
    pub zones: [Vec<[u32; 2]>; 5],
}

impl Drawn {
    /// That of the lane towards rising stations.
    pub fn of(road: &Road) -> Drawn {
        Drawn::along(Direction::Rising, marking_grade(road), required_distances(road), marks, road)
    }

    /// That of the lane coming back.
    pub fn back(road: &Road) -> Drawn {
        let grade = back::marking_grade(road);
        let required = |purpose: u8| required_distance(road.speed.into(), purpose.into(), -grade);
        let distances = [0, road.purpose].map(|purpose| required(purpose).expect("the road is accepted"));
        Drawn::along(Direction::Falling, grade, distances, back::marks, road)
    }

    fn along(direction: Direction, grade: i32, distances: [u32; 2], marks: Marks, road: &Road) -> Drawn {
        let mut list = vec![0; road.length as usize + 1];
        heights(road, &mut list).expect("the road is accepted");
        let mut marked = vec![0; list.len()];
        marks(road.speed.into(), road.purpose.into(), grade, &list, &mut marked).expect("the heights are marked");
        let curves = road.curves.iter().map(|curve| Curve {
            pvi: curve.pvi,
            length: curve.length.into(),
            grade_out: curve.grade_out.into(),
        });
        Drawn {
            direction,
            grade,
            distances,
            curves: curves.collect(),
            heights: list,
            zones: array::from_fn(|bit| runs(&marked, bit as u32)),
            marks: marked,
        }
    }

    /// What is handed over of the lane.
    fn lane(&self) -> Lane<'_> {
        let [stopping, decision] = self.distances;
        Lane { direction: self.direction, grade: self.grade, stopping, decision, zones: &self.zones }
    }

    /// What is handed over of the road, and of passing.
    pub fn profile<'a>(&'a self, road: &Road, passing: Option<Passing<'a>>) -> Profile<'a> {
        Profile {
            speed: road.speed.into(),
            purpose: road.purpose.into(),
            lane: self.lane(),
            other_lane: None,
            first_grade: road.first_grade.into(),
            curves: &self.curves,
            heights: &self.heights,
            passing,
        }
    }

    /// The picture of the road with both lanes, of which the other is that of another drawing, and where a passing distance is given with
    /// its rows.
    pub fn picture_with(&self, other: &Drawn, road: &Road, distance: Option<u32>) -> String {
        let zones = distance.map(|distance| (distance, self.passing_zones(distance)));
        let passing = zones.as_ref().map(|(distance, zones)| Passing { distance: *distance, zones });
        svg(&Profile { other_lane: Some(other.lane()), ..self.profile(road, passing) })
    }

    /// The picture of the road.
    pub fn picture(&self, road: &Road) -> String {
        svg(&self.profile(road, None))
    }

    /// The number of stations whose marks are not those of another road.
    pub fn differing(&self, other: &Drawn) -> u32 {
        self.marks.iter().zip(&other.marks).filter(|(own, other)| own != other).count() as u32
    }

    /// The zones where passing sight of so many metres is lacking, and those where passing is not judged.
    pub fn passing_zones(&self, distance: u32) -> [Vec<[u32; 2]>; 2] {
        let mut marked = vec![0; self.heights.len()];
        passing_marks(&self.heights, distance, &mut marked).expect("the heights are marked");
        [5, 6].map(|bit| runs(&marked, bit))
    }

    /// The picture of the road with the rows of passing, for a distance in metres.
    pub fn picture_with_passing(&self, road: &Road, distance: u32) -> String {
        let zones = &self.passing_zones(distance);
        svg(&self.profile(road, Some(Passing { distance, zones })))
    }
}

/// An accepted road, and the same road with another length of one curve.
pub struct Change {
    pub before: Road,
    pub after: Road,
    pub place: usize,
}

impl Change {
    /// The road with another length of the curve at a place; none where that is refused.
    pub fn of(before: &Road, place: usize, length: u16) -> Option<Change> {
        let (before, mut after) = (before.clone(), before.clone());
        after.curves[place].length = length;
        verdict(&after).is_ok().then_some(Change { before, after, place })
    }

    /// Any accepted length of any curve, its own too, and most often the longest; none where the road has no curve.
    pub fn any(random: &mut Random, road: &Road) -> Option<Change> {
        let last = road.curves.len().checked_sub(1)?;
        let place = random.within(0..=last as u32) as usize;
        let mut changes: Vec<Change> = (0..=1_000).filter_map(|half| Change::of(road, place, 2 * half)).collect();
        let longest = changes.len() as u32 - 1;
        let length = if random.once_in(3) { random.within(0..=longest) } else { longest };
        Some(changes.swap_remove(length as usize))
    }

    /// The same of a road whose other curves leave room: each is 2 m long or a break.
    pub fn with_room(random: &mut Random, road: &Road) -> Option<Change> {
        let mut road = road.clone();
        road.curves.iter_mut().for_each(|curve| curve.length = curve.length.min(2));
        Change::any(random, &road)
    }

    /// What is drawn of the road as it is, and of the changed one.
    pub fn drawn(&self) -> [Drawn; 2] {
        [&self.before, &self.after].map(Drawn::of)
    }

    /// The picture of both, from what is drawn of them.
    pub fn picture(&self, [before, after]: &[Drawn; 2]) -> String {
        preview(&Preview {
            before: before.profile(&self.before, None),
            after: after.profile(&self.after, None),
            place: self.place,
            differing: before.differing(after),
        })
    }
}
