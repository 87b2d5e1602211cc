//! A stretch of a road: its profile, and all that stands around it.

use std::fmt::{self, Formatter};

use crate::sheet::{Sheet, BOTTOM, LEFT};
use crate::{Preview, Profile};

/// A stretch of a profile on its plot. Of a preview the profile is that of the changed road.
pub struct Stretch<'a> {
    pub profile: &'a Profile<'a>,
    pub preview: Option<&'a Preview<'a>>,
    pub sheet: &'a Sheet,
}

impl fmt::Display for Stretch<'_> {
    /// What is drawn later lies above what was drawn before.
    fn fmt(&self, out: &mut Formatter) -> fmt::Result {
        self.earth(out)?;
        self.tint(out)?;
        self.station_axis(out)?;
        self.height_axis(out)?;
        self.strips(out)?;
        self.curves(out)?;
        self.curve_numbers(out)?;
        self.road(out)?;
        self.old_road(out)
    }
}

impl Stretch<'_> {
    /// The name of a part that is used by its name. In the stretches behind the first the first station parts it from the others'.
    pub fn name(&self, part: &str) -> String {
        match self.sheet.first {
            0 => part.to_string(),
            first => format!("{part}-{first}"),
        }
    }

    /// The points of a line through these heights, from the station of the first on.
    pub fn points(&self, first: i64, heights: &[i32]) -> String {
        let point = |(station, &height): (i64, &i32)| format!(" {},{}", self.sheet.x(station), self.sheet.y(height));
        (first..).zip(heights).map(point).collect()
    }

    /// The profile as a line that is used by its name, and the earth below it.
    fn earth(&self, out: &mut Formatter) -> fmt::Result {
        let points = self.points(self.sheet.first, self.sheet.heights(self.profile.heights));
        writeln!(out, r#"<defs><polyline id="{}" points="{points}"/></defs>"#, self.name("profile"))?;
        let right = self.sheet.right();
        writeln!(out, r#"<polygon class="earth" points="{LEFT},{BOTTOM}{points} {right},{BOTTOM}"/>"#)
    }
}
