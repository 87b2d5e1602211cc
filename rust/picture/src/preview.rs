//! What the picture of a preview has besides that of the changed road: the road as it is.

use std::fmt::{self, Formatter};

use crate::sheet::{Sheet, PAIR_STEP};
use crate::stretch::Stretch;
use crate::{Curve, Picture, Profile};

/// A road as it is, and the same road with another length of one curve.
#[derive(Clone, Copy, Debug)]
pub struct Preview<'a> {
    /// The road as it is.
    pub before: Profile<'a>,
    /// The changed road.
    pub after: Profile<'a>,
    /// The place of the changed curve, counted from 0.
    pub place: usize,
    /// The number of stations whose marks differ.
    pub differing: u32,
}

/// What the lines and the changed curve stand for.
const KEY: &str = r#"<path class="old line" d="M28000 9000H32000"/><text x="32600" y="9500">the road as it is</text>
<path class="road" d="M46000 9000H50000"/><text x="50600" y="9500">the changed road, its zones in colour</text>
<path class="crest changed" d="M78000 9600Q80000 7600 82000 9600Z"/><path class="old" d="M79000 9600Q80000 7600 81000 9600Z"/>
<text x="82600" y="9500">the changed curve, its old shape dashed</text>
"#;

/// The picture of a preview: an SVG document that needs nothing else. It is that of the changed road, with the profile of the
/// road as it is where that differs, the shape of the curve as it is, and a pair of rows, before and after, for each letter.
pub fn preview(preview: &Preview) -> String {
    let Preview { before, after, .. } = preview;
    let sheets = Sheet::stretches(&[before.heights, after.heights], after.strips(), PAIR_STEP);
    Picture { profile: after, preview: Some(preview), sheets }.to_string()
}

/// At how many of so many stations the marks differ, in words.
pub fn differing(differing: u32, stations: u32) -> String {
    let verb = if differing == 1 { "differs" } else { "differ" };
    format!("{differing} of {stations} stations {verb}")
}

impl Preview<'_> {
    /// The curve at a place as it is, where that is the changed one.
    pub(crate) fn old_curve(&self, place: usize) -> Option<&Curve> {
        self.before.curves.get(place).filter(|_| place == self.place)
    }

    /// What is changed, behind the title.
    pub(crate) fn change(&self) -> String {
        let place = self.place;
        let curves = self.before.curves.get(place).zip(self.after.curves.get(place));
        let words = |(old, new): (&Curve, &Curve)| {
            format!(": curve {place}, PVI {} m, length {} m &#8594; {} m", new.pvi, old.length, new.length)
        };
        curves.map(words).unwrap_or_default()
    }
}

impl Picture<'_> {
    /// Of a preview: at how many stations the marks differ, and a key.
    pub fn differing(&self, out: &mut Formatter) -> fmt::Result {
        let Some(Preview { before, differing: many, .. }) = self.preview else { return Ok(()) };
        let words = differing(*many, before.heights.len() as u32);
        writeln!(out, r#"<text class="sub letter" x="1500" y="9500">{words}</text>"#)?;
        out.write_str(KEY)
    }
}

impl Stretch<'_> {
    /// Of a preview: the profile of the road as it is, from where the two profiles part to where they meet again. It lies on a
    /// pale band, so that it is seen where zones are coloured.
    pub fn old_road(&self, out: &mut Formatter) -> fmt::Result {
        let Some(Preview { before, after, .. }) = self.preview else { return Ok(()) };
        let [old, new] = [before, after].map(|profile| self.sheet.heights(profile.heights));
        let pairs = old.iter().zip(new).enumerate();
        let mut stations = pairs.filter(|(_, (old, new))| old != new).map(|(station, _)| station);
        let Some(first) = stations.next() else { return Ok(()) };
        let last = stations.next_back().unwrap_or(first);
        let seen = first.saturating_sub(1)..(last + 2).min(old.len());
        let points = self.points(self.sheet.first + seen.start as i64, &old[seen]);
        let name = self.name("old");
        writeln!(out, r#"<defs><polyline id="{name}" points="{points}"/></defs>"#)?;
        writeln!(out, r##"<use href="#{name}" class="old halo"/><use href="#{name}" class="old line"/>"##)
    }
}
