//! The zones: along the road, and in the strips below the plot.

use std::fmt::{self, Formatter};
use std::iter;

use crate::sheet::{BARS, BAR_HEIGHT, HEIGHT, LEFT, OTHER_LANE, SHEET_WIDTH, TOP};
use crate::stretch::Stretch;
use crate::{Direction, Lane, MEANINGS, PASSING_MEANINGS};

/// The classes and letters of the strips, in the order of a profile's zones, and behind them those of passing.
const LETTERS: [[&str; 2]; 7] = [["S", "S"], ["D", "D"], ["R", "R"], ["ns", "s"], ["nd", "d"], ["P", "P"], ["np", "p"]];

/// Where the bars of a strip begin, and where the stations' numbers of its zones stand.
#[derive(Clone, Copy)]
struct Track {
    bars: i64,
    labels: i64,
}

/// A strip with its labels above, and the lower one of a pair, with its labels below.
const TRACK: Track = Track { bars: BARS, labels: BARS - 300 };
const LOWER_TRACK: Track = Track { bars: BARS + BAR_HEIGHT + 200, labels: BARS + 2 * BAR_HEIGHT + 1_350 };

/// The labels of zones are a twentieth of the plot apart, or as much more as longer numbers need.
const LABELS: i64 = 20;

/// A zone that has a label, behind the station in its middle.
type Labelled<'a> = (i64, &'a [u32; 2]);

/// The parts that are cut out of the profile's line, each by its name and its classes, the lowest first.
const PARTS: [[&str; 2]; 5] =
    [["ns", "road ns"], ["judged", "road"], ["D", "road D"], ["R", "road R"], ["S", "road S"]];

impl Stretch<'_> {
    /// A tint over the plot where stopping sight is lacking: where both lanes lack it, it is twice as strong.
    pub fn tint(&self, out: &mut Formatter) -> fmt::Result {
        for Lane { zones: [lacking, ..], .. } in self.profile.lanes() {
            writeln!(out, r#"<g class="tint">"#)?;
            self.bars(out, &self.seen(lacking), TOP, HEIGHT)?;
            writeln!(out, "</g>")?;
        }
        Ok(())
    }

    /// The road, and where both lanes are drawn a second line for the other one.
    pub fn road(&self, out: &mut Formatter) -> fmt::Result {
        self.lane_line(out, &self.profile.lane, "", "")?;
        let Some(other) = &self.profile.other_lane else { return Ok(()) };
        self.lane_line(out, other, "other-", &format!(r#" transform="translate(0 {OTHER_LANE})""#))
    }

    /// A lane along the road: dark where stopping is judged, dashed where it is not, and thick along the zones S, R and D. Of these D is
    /// the lowest: it shows where the decision is judged and stopping is not. Its parts are named behind a word, and it may be moved.
    fn lane_line(&self, out: &mut Formatter, lane: &Lane, word: &str, moved: &str) -> fmt::Result {
        let name = |part: &str| self.name(&format!("{word}{part}"));
        let [lacking, decision_lacking, reduced, not_judged, _] = lane.zones;
        let ([left, right], foot) = (self.judged(lane), self.sheet.stretch_foot());
        let judged = name("judged");
        writeln!(out, r#"<clipPath id="{judged}"><path d="M{left} 0H{right}V{foot}H{left}Z"/></clipPath>"#)?;
        for (part, zones) in [("S", lacking), ("R", reduced), ("D", decision_lacking), ("ns", not_judged)] {
            writeln!(out, r#"<clipPath id="{}">"#, name(part))?;
            self.bars(out, &self.seen(zones), TOP, HEIGHT)?;
            writeln!(out, "</clipPath>")?;
        }
        let profile = self.name("profile");
        for [part, class] in PARTS {
            let part = name(part);
            writeln!(out, r##"<use href="#{profile}" class="{class}" clip-path="url(#{part})"{moved}/>"##)?;
        }
        Ok(())
    }

    /// The edges of what is judged of a lane: what is not lies where its drivers leave the road.
    fn judged(&self, lane: &Lane) -> [i64; 2] {
        let [.., not_judged, _] = lane.zones;
        match lane.direction {
            Direction::Rising => {
                [0, not_judged.first().map_or(self.sheet.right(), |&[first, _]| self.sheet.zone_left(first))]
            }
            Direction::Falling => {
                [not_judged.last().map_or(LEFT, |&[_, last]| self.sheet.zone_right(last)), SHEET_WIDTH]
            }
        }
    }

    /// The zones that are to be seen in the stretch.
    fn seen(&self, zones: &[[u32; 2]]) -> Vec<[u32; 2]> {
        zones.iter().copied().filter(|zone| self.sheet.shows(zone)).collect()
    }

    /// A rectangle for each zone.
    fn bars(&self, out: &mut Formatter, zones: &[[u32; 2]], top: i64, height: i64) -> fmt::Result {
        for &zone in zones {
            let (left, width) = (self.sheet.zone_left(zone[0]), self.sheet.zone_width(zone));
            writeln!(out, r#"<rect x="{left}" y="{top}" width="{width}" height="{height}"/>"#)?;
        }
        Ok(())
    }

    /// The strips of the lane that is drawn; of both lanes a set for each, below a heading.
    pub fn strips(&self, out: &mut Formatter) -> fmt::Result {
        let (own, mut tops) = (self.profile.rows(), self.sheet.strip_tops());
        let before = self.preview.iter().flat_map(|preview| preview.before.rows());
        let Some(other) = &self.profile.other_lane else { return self.rows(out, own, before, &mut tops) };
        self.opening(out, &self.profile.lane, &mut tops)?;
        self.rows(out, own, before, &mut tops)?;
        writeln!(out, "</g>")?;
        self.opening(out, other, &mut tops)?;
        self.rows(out, other.zones.iter(), iter::empty(), &mut tops)?;
        writeln!(out, "</g>")
    }

    /// Opens the set of a lane's strips, with its heading.
    fn opening(&self, out: &mut Formatter, lane: &Lane, tops: &mut impl Iterator<Item = i64>) -> fmt::Result {
        let class = match lane.direction {
            Direction::Rising => "rising",
            Direction::Falling => "falling",
        };
        let line = tops.next().unwrap_or_default() + TRACK.bars + 1_350;
        writeln!(out, r#"<g class="{class}">"#)?;
        write!(out, r#"<text class="sub letter" x="1500" y="{line}">Sight in the direction of "#)?;
        writeln!(out, "{}, {}</text>", lane.direction.towards(), lane.needs())
    }

    /// A strip for each list of zones, in a group of its class; where there is a list before it, a pair of them.
    fn rows<'a>(
        &self,
        out: &mut Formatter,
        own: impl Iterator<Item = &'a Vec<[u32; 2]>>,
        mut before: impl Iterator<Item = &'a Vec<[u32; 2]>>,
        tops: &mut impl Iterator<Item = i64>,
    ) -> fmt::Result {
        let rows = LETTERS.into_iter().zip(MEANINGS.into_iter().chain(PASSING_MEANINGS)).zip(own);
        for ((([class, letter], meaning), zones), top) in rows.zip(tops) {
            let name = format!(r#"<tspan class="letter">{letter}</tspan>&#160; {meaning}"#);
            writeln!(out, r#"<g class="{class}" transform="translate(0 {top})">"#)?;
            let zones = &self.seen(zones);
            match before.next() {
                None => self.strip(out, &name, zones, &self.labelled([zones; 2])[0], TRACK)?,
                Some(before) => self.pair(out, &name, [&self.seen(before), zones])?,
            }
            writeln!(out, "</g>")?;
        }
        Ok(())
    }

    /// Two strips under one name: the zones of the road as it is, and below them those of the changed road.
    fn pair(&self, out: &mut Formatter, name: &str, [before, after]: [&[[u32; 2]]; 2]) -> fmt::Result {
        writeln!(out, r#"<text x="1500" y="{}">{name}</text>"#, TRACK.labels)?;
        let [labelled_before, labelled_after] = self.labelled([before, after]);
        writeln!(out, r#"<g class="before">"#)?;
        self.strip(out, "before", before, &labelled_before, TRACK)?;
        writeln!(out, "</g>")?;
        self.strip(out, "after", after, &labelled_after, LOWER_TRACK)
    }

    /// A strip: its name, a bar for each zone, their stations and their number.
    fn strip(
        &self,
        out: &mut Formatter,
        name: &str,
        zones: &[[u32; 2]],
        labelled: &[Labelled],
        track: Track,
    ) -> fmt::Result {
        let Track { bars, labels } = track;
        let (foot, line, right) = (bars + BAR_HEIGHT, bars + 1_350, self.sheet.right());
        writeln!(out, r#"<path class="lane" d="M{LEFT} {bars}H{right}V{foot}H{LEFT}Z"/>"#)?;
        write!(out, r#"<path d="M1500 {bars}H3100V{foot}H1500Z"/>"#)?;
        writeln!(out, r#"<text x="3800" y="{line}">{name}</text>"#)?;
        self.bars(out, zones, bars, BAR_HEIGHT)?;
        self.zone_labels(out, labelled, labels)?;
        let plural = if zones.len() == 1 { "" } else { "s" };
        writeln!(out, r#"<text x="{}" y="{line}">{} zone{plural}</text>"#, right + 1_200, zones.len())
    }

    /// The zones of two strips whose labels have room: first such as one strip alone has, then those of both, in both or in
    /// neither.
    fn labelled<'a>(&self, [before, after]: [&'a [[u32; 2]]; 2]) -> [Vec<Labelled<'a>>; 2] {
        let room = self.sheet.station_room(LABELS);
        let in_the_middle = |zone: &'a [u32; 2]| (self.sheet.middle(zone), zone);
        // Zones are ascending.
        let has = |zones: &[[u32; 2]], zone: &[u32; 2]| zones.binary_search(zone).is_ok();
        let alone = [(before, after), (after, before)].map(|(own, other)| {
            let zones = own.iter().filter(|zone| !has(other, zone)).map(in_the_middle);
            self.sheet.apart(zones, room).collect::<Vec<_>>()
        });
        let is_free = |&(middle, _): &Labelled| alone.iter().flatten().all(|(other, _)| (other - middle).abs() >= room);
        let of_both = before.iter().filter(|zone| has(after, zone)).map(in_the_middle).filter(is_free);
        let of_both: Vec<_> = self.sheet.apart(of_both, room).collect();
        alone.clone().map(|mut labelled| {
            labelled.extend(&of_both);
            labelled.sort_unstable();
            labelled
        })
    }

    /// The zones' first and last stations, beside them.
    fn zone_labels(&self, out: &mut Formatter, labelled: &[Labelled], y: i64) -> fmt::Result {
        for &(middle, [first, last]) in labelled {
            write!(out, r#"<text class="zone" x="{}" y="{y}">{first}"#, self.sheet.x(middle))?;
            if first < last {
                write!(out, "&#8211;{last}")?;
            }
            writeln!(out, "</text>")?;
        }
        Ok(())
    }
}
