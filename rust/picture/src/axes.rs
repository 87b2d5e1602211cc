//! The axes: grid lines in round steps, and their numbers.

use std::fmt::{self, Formatter};

use crate::decimal;
use crate::sheet::{multiples, step, Sheet, BOTTOM, HEIGHT, LEFT, METRE, STATIONS, TOP};
use crate::stretch::Stretch;

// How many steps an axis has at most.
const STATION_STEPS: i64 = 16;
const HEIGHT_STEPS: i64 = 10;

/// The last station has its number where it is more than a thirty-second of the plot behind the last step, or as much more as longer
/// numbers need.
const LAST_STATION: i64 = 32;

impl Stretch<'_> {
    /// The stations in round steps, and the last one where there is room for its number.
    pub fn station_axis(&self, out: &mut Formatter) -> fmt::Result {
        let &Sheet { first, last, across, .. } = self.sheet;
        let step = step(across, STATION_STEPS);
        for station in multiples(step, first, last) {
            self.station_tick(out, station)?;
        }
        if last % step > self.sheet.station_room(LAST_STATION) {
            self.station_tick(out, last)?;
        }
        writeln!(out, r#"<text x="{}" y="{STATIONS}">station, m</text>"#, self.sheet.right() + 3_000)
    }

    /// A line at a station, through the plot and the strips, and its number.
    fn station_tick(&self, out: &mut Formatter, station: i64) -> fmt::Result {
        let (x, foot) = (self.sheet.x(station), self.sheet.lines_foot());
        write!(out, r#"<path class="grid" d="M{x} {TOP}V{BOTTOM}M{x} 66800V{foot}"/>"#)?;
        writeln!(out, r#"<text class="middle" x="{x}" y="{STATIONS}">{station}</text>"#)
    }

    /// The heights in round steps, from the plot's lower edge to its upper one, and the plot's frame.
    pub fn height_axis(&self, out: &mut Formatter) -> fmt::Result {
        let (foot, shown, right) = (self.sheet.foot, self.sheet.shown, self.sheet.right());
        let step = step(shown, HEIGHT_STEPS);
        for height in multiples(step, foot, foot + shown) {
            let (y, number) = (self.sheet.y(height), metres(height, step));
            write!(out, r#"<path class="grid" d="M{LEFT} {y}H{right}"/>"#)?;
            writeln!(out, r#"<text class="height" x="21200" dy="450" y="{y}">{number}</text>"#)?;
        }
        writeln!(out, r#"<text class="middle" transform="translate(15200 38000) rotate(-90)">height, m</text>"#)?;
        writeln!(out, r#"<rect class="frame" x="{LEFT}" y="{TOP}" width="{}" height="{HEIGHT}"/>"#, right - LEFT)
    }
}

/// A height in metres, with as many decimals as the step has.
fn metres(height: i64, step: i64) -> String {
    let decimals = METRE.ilog10();
    let shown = decimals.saturating_sub(step.ilog10());
    decimal(height, decimals as usize, shown as usize)
}
