//! A road's picture, in SVG: its profile, the zones along it, of one lane or of both, and its curves, a long road in stretches one below
//! the other; the same of a road before and after a change of one curve; and a page of the distances on a level road.
//!
//! This only draws. Heights, distances and zones are handed over as the proved functions give them, and where they lie on
//! the sheet is worked out in whole numbers. Any profile is drawn: what would lie outside the plot lies at its edge, and only
//! the bar of a zone that is narrower than it can be seen may reach a little further.

#![forbid(unsafe_code)]
#![deny(missing_docs)]

use std::fmt::{self, Formatter};
use std::iter;

pub use crate::page::{level_page, LevelPage, LevelRow};
pub use crate::preview::{differing, preview, Preview};
use crate::sheet::{Sheet, SHEET_WIDTH, STRIP_STEP};
use crate::stretch::Stretch;

mod axes;
mod curves;
mod page;
mod preview;
mod sheet;
mod stretch;
mod zones;

/// A vertical curve, or a break in grade.
#[derive(Clone, Copy, Debug, PartialEq, Eq)]
pub struct Curve {
    /// The station of its PVI.
    pub pvi: u32,
    /// Its length in metres, 0 for a break.
    pub length: u32,
    /// The grade behind it, in hundredths of a percent.
    pub grade_out: i32,
}

/// The way that the drivers of a lane go and look.
#[derive(Clone, Copy, Debug, PartialEq, Eq)]
pub enum Direction {
    /// Towards rising stations.
    Rising,
    /// Towards falling stations: the lane coming back.
    Falling,
}

impl Direction {
    /// The stations that it goes towards, in words and with an arrow.
    fn towards(self) -> &'static str {
        match self {
            Direction::Rising => "rising stations &#8594;",
            Direction::Falling => "falling stations &#8592;",
        }
    }

    /// What a grade is for whoever comes back, behind its number: that has the sign of rising stations.
    fn slope(self, grade: i32) -> &'static str {
        match (self, grade.signum()) {
            (Direction::Falling, 1) => " (downhill)",
            (Direction::Falling, -1) => " (uphill)",
            _ => "",
        }
    }
}

/// What is to be said of the sight along a lane.
#[derive(Clone, Copy, Debug)]
pub struct Lane<'a> {
    /// The way that its drivers go.
    pub direction: Direction,
    /// The grade that it is marked with, as for rising stations, in hundredths of a percent.
    pub grade: i32,
    /// The distance in metres that a driver needs to see for stopping.
    pub stopping: u32,
    /// The distance in metres that a driver needs to see for the decision.
    pub decision: u32,
    /// The zones of the letters S, D, R, s and d, ascending, each by its first and last station.
    pub zones: &'a [Vec<[u32; 2]>; 5],
}

impl Lane<'_> {
    /// The grade and the distances that are needed on it, in words.
    fn needs(&self) -> String {
        let Lane { direction, grade, stopping, decision, .. } = *self;
        let (percent, slope) = (decimal(grade.into(), 2, 2), direction.slope(grade));
        format!("marked with grade {percent} %{slope}: stopping sight {stopping} m, decision sight {decision} m")
    }
}

/// A road's profile, and what is to be said of the sight along it.
#[derive(Clone, Copy, Debug)]
pub struct Profile<'a> {
    /// The speed in km/h.
    pub speed: u32,
    /// The purpose of the decision: 1 to 5 for the decisions A to E.
    pub purpose: u32,
    /// The lane that is drawn.
    pub lane: Lane<'a>,
    /// The other lane, where both are drawn.
    pub other_lane: Option<Lane<'a>>,
    /// The grade before the first curve, in hundredths of a percent.
    pub first_grade: i32,
    /// The curves in their order.
    pub curves: &'a [Curve],
    /// A height for each station, in h-units, which are tenths of a millimetre. The last station is the road's length.
    pub heights: &'a [i32],
    /// What is to be said of passing for the first lane, where a distance for it is given.
    pub passing: Option<Passing<'a>>,
}

/// What is to be said of passing another car along a road.
#[derive(Clone, Copy, Debug)]
pub struct Passing<'a> {
    /// The distance in metres that a driver needs to see for passing.
    pub distance: u32,
    /// The zones where passing sight is lacking and those where passing is not judged, ascending, each by its first and
    /// last station.
    pub zones: &'a [Vec<[u32; 2]>; 2],
}

impl Profile<'_> {
    /// The lanes that are drawn, one or both.
    fn lanes(&self) -> impl Iterator<Item = &Lane<'_>> {
        iter::once(&self.lane).chain(&self.other_lane)
    }

    /// The zones of each row of the first lane below the plot, those of passing last.
    fn rows(&self) -> impl Iterator<Item = &Vec<[u32; 2]>> {
        self.lane.zones.iter().chain(self.passing.iter().flat_map(|passing| passing.zones))
    }

    /// How many strips there are below the plot. Where both lanes are drawn each has one for its heading.
    fn strips(&self) -> usize {
        let of_other = self.other_lane.map_or(0, |lane| lane.zones.len() + 2);
        self.rows().count() + of_other
    }
}

/// The picture of a profile: an SVG document that needs nothing else.
///
/// ```
/// use picture::{svg, Curve, Direction, Lane, Profile};
///
/// // From height 0 it rises by 15 %, and from station 100 on it falls by 15 %; the crest between is 2 m long.
/// let mut heights: Vec<i32> = (0..=300_i32).map(|station| 1_500 * (100 - (station - 100).abs())).collect();
/// heights[100] = 149_250;
/// let picture = svg(&Profile {
///     speed: 20,
///     purpose: 1,
///     lane: Lane {
///         direction: Direction::Rising,
///         grade: -1_500,
///         stopping: 25,
///         decision: 25,
///         zones: &[vec![[78, 95]], vec![[78, 95]], vec![], vec![[276, 300]], vec![[276, 300]]],
///     },
///     other_lane: None,
///     first_grade: 1_500,
///     curves: &[Curve { pvi: 100, length: 2, grade_out: -1_500 }],
///     heights: &heights,
///     passing: None,
/// });
/// assert!(picture.starts_with("<svg "));
/// assert!(picture.contains("20 km/h, marked with grade &#8722;15.00 %: stopping sight 25 m, decision sight 25 m (purpose 1)"));
/// ```
pub fn svg(profile: &Profile) -> String {
    let sheets = Sheet::stretches(&[profile.heights], profile.strips(), STRIP_STEP);
    Picture { profile, preview: None, sheets }.to_string()
}

/// A profile on its sheet, in one stretch or in several. Of a preview it is that of the changed road.
struct Picture<'a> {
    profile: &'a Profile<'a>,
    preview: Option<&'a Preview<'a>>,
    sheets: Vec<Sheet>,
}

/// What the zones of the letters S, D, R, s and d are.
pub const MEANINGS: [&str; 5] = [
    "stopping sight lacking",
    "decision sight lacking",
    "reduced decision zone",
    "stopping not judged",
    "decision not judged",
];

/// What the zones of passing are.
pub const PASSING_MEANINGS: [&str; 2] = ["passing sight lacking", "passing not judged"];

impl fmt::Display for Picture<'_> {
    /// The headings, and below them the stretches. Those behind the first are moved down.
    fn fmt(&self, out: &mut Formatter) -> fmt::Result {
        self.opening(out)?;
        self.headings(out)?;
        self.differing(out)?;
        for sheet in &self.sheets {
            let stretch = Stretch { profile: self.profile, preview: self.preview, sheet };
            match sheet.down() {
                0 => write!(out, "{stretch}")?,
                down => write!(out, "<g class=\"stretch\" transform=\"translate(0 {down})\">\n{stretch}</g>\n")?,
            }
        }
        out.write_str("</svg>\n")
    }
}

impl Picture<'_> {
    /// The sheet's size, its styles and its ground.
    fn opening(&self, out: &mut Formatter) -> fmt::Result {
        let height = self.sheets.iter().map(|sheet| sheet.down() + sheet.stretch_foot()).max().unwrap_or(0);
        let passing = if self.profile.passing.is_some() { include_str!("passing.css") } else { "" };
        let preview = if self.preview.is_some() { include_str!("preview.css") } else { "" };
        write!(out, r#"<svg xmlns="http://www.w3.org/2000/svg" viewBox="0 0 {SHEET_WIDTH} {height}" "#)?;
        writeln!(out, r#"width="{}" height="{}">"#, SHEET_WIDTH / 100, height / 100)?;
        writeln!(out, "<style>\n{}{passing}{preview}</style>", include_str!("style.css"))?;
        writeln!(out, r##"<rect width="{SHEET_WIDTH}" height="{height}" fill="#fff"/>"##)
    }

    /// The title, and below it the speed, the grade, the distances that are needed on it, that for passing, and the
    /// exaggeration. Where both lanes are drawn the grades and the distances stand above their rows.
    fn headings(&self, out: &mut Formatter) -> fmt::Result {
        let Profile { speed, purpose, lane, other_lane, passing, .. } = *self.profile;
        let Sheet { length, exaggeration, .. } = self.sheets[0];
        let change = self.preview.map(Preview::change).unwrap_or_default();
        writeln!(out, "<title>Sight along the road, {length} m{change}</title>")?;
        writeln!(out, r#"<text class="title" x="1500" y="4200">Sight along the road, {length} m{change}</text>"#)?;
        let passing =
            passing.map(|Passing { distance, .. }| format!("; passing sight {distance} m")).unwrap_or_default();
        write!(out, r#"<text class="sub" x="1500" y="7000">{speed} km/h, "#)?;
        match other_lane {
            None => {
                write!(out, "{} (purpose {purpose}){passing}; ", lane.needs())?;
                write!(out, "sight in the direction of {}; ", lane.direction.towards())?;
            }
            Some(other) => {
                let [upper, lower] = [lane, other].map(|lane| lane.direction.towards());
                write!(out, "purpose {purpose}{passing}; sight in both directions: ")?;
                write!(out, "the upper line towards {upper}, the lower one towards {lower}; ")?;
            }
        }
        writeln!(out, r#"vertical exaggeration <tspan class="letter">{exaggeration} : 1</tspan></text>"#)
    }
}

/// A number that is counted in units of its last decimal, with the first so many of its decimals.
fn decimal(number: i64, decimals: usize, shown: usize) -> String {
    let sign = if number < 0 { "&#8722;" } else { "" };
    let digits = format!("{:0>least$}", number.abs(), least = decimals + 1);
    let (whole, behind) = digits.split_at(digits.len() - decimals);
    let point = if shown > 0 { "." } else { "" };
    format!("{sign}{whole}{point}{}", &behind[..shown])
}
