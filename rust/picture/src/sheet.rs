//! The geometry of a picture: where stations and heights lie on the sheet, and the steps of its axes.
//!
//! Coordinates are whole hundredths of a pixel, x to the right and y down, on a sheet that is 1,600 pixels wide, and
//! 900 high where it has five strips of zones, 1,208 where it has those of both lanes, and 1,080 where it has five pairs of
//! them. Stations are metres, and heights h-units.
//!
//! A road over 8,000 m is drawn in stretches, one below the other, each with a plot and strips: as few as can be with no more than
//! 8,000 m in each, and all but the last equally long, a multiple of 500 m. They have one scale; which heights a plot shows goes
//! by its own stretch.

use std::ops::Range;

/// The sheet's width. Its height goes by its strips and stretches.
pub const SHEET_WIDTH: i64 = 160_000;

// The longest stretch, and the step of those that are shorter.
const LONGEST_STRETCH: i64 = 8_000;
const STRETCH_STEP: i64 = 500;

/// How much of the sheet is above the first stretch, for the headings.
const HEADINGS: i64 = 7_000;

// The edges of the plot, which the profile is drawn in.
pub const LEFT: i64 = 22_000;
const RIGHT: i64 = 150_000;
pub const TOP: i64 = 14_000;
pub const BOTTOM: i64 = 62_000;

const WIDTH: i64 = RIGHT - LEFT;
pub const HEIGHT: i64 = BOTTOM - TOP;

/// Where the curves' shapes stand, above the plot.
pub const SHAPES: i64 = 13_000;

/// Where the stations' numbers stand, below the plot.
pub const STATIONS: i64 = 64_000;

// The strips of zones: where the first begins, how far it is to the next, or from a pair of strips to the next pair, and where
// a strip's bars begin and how high they are.
const STRIPS: i64 = 66_500;
pub const STRIP_STEP: i64 = 4_400;
pub const PAIR_STEP: i64 = 8_000;
pub const BARS: i64 = 1_500;
pub const BAR_HEIGHT: i64 = 1_800;

/// How far below the road the line of the other lane is drawn, where both are.
pub const OTHER_LANE: i64 = 1_500;

// How far the stations' lines and the stretch reach below the last strip.
const LINES_BELOW: i64 = 100;
const STRETCH_BELOW: i64 = 1_500;

/// A metre in h-units.
pub const METRE: i64 = 10_000;

/// The part of the plot's height that a profile may fill.
const PROFILE_ROOM: i64 = 40_000;

/// The least width of a zone, so that one of a single station is seen.
const LEAST_ZONE: i64 = 250;

/// How many times heights may be stretched, the largest first; where none finds room, not at all.
const EXAGGERATIONS: [i64; 8] = [500, 200, 100, 50, 20, 10, 5, 2];

/// How a stretch of a road lies on the sheet. Its coordinates are those of the first stretch; the others are moved down.
pub struct Sheet {
    /// The road's length in metres.
    pub length: i64,
    /// The stretch's first station.
    pub first: i64,
    /// Its last station, which is the first one of the next stretch too.
    pub last: i64,
    /// The metres that the plot is wide.
    pub across: i64,
    /// How many times longer a metre up is than a metre across.
    pub exaggeration: i64,
    /// The height at the plot's lower edge.
    pub foot: i64,
    /// The h-units from the plot's lower edge to its upper one.
    pub shown: i64,
    /// How far it is from one strip to the next.
    strip_step: i64,
    /// y of the lower edge of the last strip.
    strips_foot: i64,
}

impl Sheet {
    /// The stretches of a road that has these profiles, each with a height for each station. They are in the middle of each plot,
    /// all drawn as many times higher as find room, and below it there are so many strips, with a step from one to the next.
    pub fn stretches(profiles: &[&[i32]], strips: usize, strip_step: i64) -> Vec<Sheet> {
        let stations = profiles.iter().map(|heights| heights.len()).max().unwrap_or(0);
        // With a length of 32 bits every product below fits 64.
        let length = u32::try_from(stations.saturating_sub(1)).unwrap_or(u32::MAX).into();
        let (many, across) = parted(length);
        let ends = (0..many).map(|place| [place * across, length.min((place + 1) * across)]);
        let ranges: Vec<([i64; 2], [i64; 2])> = ends.map(|ends| (ends, range(profiles, ends))).collect();
        let fits = |&exaggeration: &i64| {
            let room = showing(PROFILE_ROOM, exaggeration, across);
            ranges.iter().all(|(_, [low, high])| high - low <= room)
        };
        let exaggeration = EXAGGERATIONS.into_iter().find(fits).unwrap_or(1);
        let shown = showing(HEIGHT, exaggeration, across);
        let strips_foot = STRIPS + strip_step * strips as i64;
        let sheet = |([first, last], [low, high]): ([i64; 2], [i64; 2])| {
            let foot = low - (shown - (high - low)).max(0) / 2;
            Sheet { length, first, last, across, exaggeration, foot, shown, strip_step, strips_foot }
        };
        ranges.into_iter().map(sheet).collect()
    }

    /// How far the stretch is moved down.
    pub fn down(&self) -> i64 {
        self.first.checked_div(self.across).unwrap_or(0) * (self.stretch_foot() - HEADINGS)
    }

    /// The heights of its stations, of those of a road.
    pub fn heights<'a>(&self, heights: &'a [i32]) -> &'a [i32] {
        between(heights, [self.first, self.last])
    }

    /// The stations that are in this stretch and in no other: the last one is in the next stretch, and what is behind the road
    /// in the last stretch.
    pub fn own(&self) -> Range<i64> {
        let end = if self.last == self.length { i64::MAX } else { self.last };
        self.first..end
    }

    /// y of the upper edges of the strips, one below the other.
    pub fn strip_tops(&self) -> impl Iterator<Item = i64> {
        let step = self.strip_step;
        (0..).map(move |place| STRIPS + step * place)
    }

    /// y of the stretch's lower edge. That of the last one, moved down, is the sheet's.
    pub fn stretch_foot(&self) -> i64 {
        self.strips_foot + STRETCH_BELOW
    }

    /// y of the lower end of the stations' lines.
    pub fn lines_foot(&self) -> i64 {
        self.strips_foot + LINES_BELOW
    }

    /// x of a station; off the stretch that of its nearer end.
    pub fn x(&self, station: impl Into<i64>) -> i64 {
        self.along(2 * station.into())
    }

    /// x of the stretch's right end.
    pub fn right(&self) -> i64 {
        self.x(self.last)
    }

    /// Whether a zone is to be seen: whether one of its stations is in this stretch and in no other.
    pub fn shows(&self, &[first, last]: &[u32; 2]) -> bool {
        self.own().start <= last.into() && i64::from(first) < self.own().end
    }

    /// What is to be seen of something from one station to another: it is cut where the road goes on in another stretch.
    pub fn cut(&self, [from, to]: [i64; 2]) -> [i64; 2] {
        let first = if self.first == 0 { from } else { from.max(self.first) };
        let last = if self.last == self.length { to } else { to.min(self.last) };
        [first, last]
    }

    /// The station in the middle of what is to be seen of a zone.
    pub fn middle(&self, &[first, last]: &[u32; 2]) -> i64 {
        (self.first.max(first.into()) + self.last.min(last.into())) / 2
    }

    /// x of the left edge of a zone. It lies half a metre before its first station, and the right edge half a metre behind
    /// its last, so that neighbouring zones meet.
    pub fn zone_left(&self, first: u32) -> i64 {
        self.along(2 * i64::from(first) - 1)
    }

    /// x of the right edge of a zone.
    pub fn zone_right(&self, last: u32) -> i64 {
        self.along(2 * i64::from(last) + 1)
    }

    /// The width of a zone from its first station to its last.
    pub fn zone_width(&self, [first, last]: [u32; 2]) -> i64 {
        (self.zone_right(last) - self.zone_left(first)).max(LEAST_ZONE)
    }

    /// x so many half metres along the road. A road of no length is at the left edge.
    fn along(&self, halves: i64) -> i64 {
        let behind = halves.clamp(2 * self.first, 2 * self.last) - 2 * self.first;
        LEFT + (behind * WIDTH).checked_div(2 * self.across).unwrap_or(0)
    }

    /// y of a height; below what is shown that of the plot's lower edge, and above it that of its upper one.
    pub fn y(&self, height: impl Into<i64>) -> i64 {
        let above = (height.into() - self.foot).clamp(0, self.shown);
        BOTTOM - (self.exaggeration * WIDTH * above).checked_div(self.across * METRE).unwrap_or(0)
    }

    /// How far labels are apart: one part of so many of the plot.
    pub fn room(&self, parts: i64) -> i64 {
        self.across / parts
    }

    /// How far labels that have stations are apart: on a road of several stretches, whose stations have more digits, half as far
    /// again.
    pub fn station_room(&self, parts: i64) -> i64 {
        let room = self.room(parts);
        if self.across < self.length {
            room + room / 2
        } else {
            room
        }
    }

    /// The labels with so many metres between them, each with its station: one that is nearer to the last one kept is left out.
    pub fn apart<T>(&self, labels: impl Iterator<Item = (i64, T)>, room: i64) -> impl Iterator<Item = (i64, T)> {
        let mut free = 0;
        labels.filter(move |&(station, _)| {
            let fits = free <= station;
            if fits {
                free = station + room;
            }
            fits
        })
    }
}

/// In how many stretches a road of this length is drawn, and how many metres a plot is wide.
fn parted(length: i64) -> (i64, i64) {
    match upwards(length, LONGEST_STRETCH) {
        0 | 1 => (1, length),
        many => (many, STRETCH_STEP * upwards(length, many * STRETCH_STEP)),
    }
}

/// How many steps it takes to cover a span.
fn upwards(span: i64, step: i64) -> i64 {
    (span + step - 1) / step
}

/// The heights from one station to another, as far as there are any.
fn between(heights: &[i32], [first, last]: [i64; 2]) -> &[i32] {
    let [begin, end] = [first, last + 1].map(|station| heights.len().min(station as usize));
    &heights[begin..end]
}

/// The least and the greatest height of profiles from one station to another.
fn range(profiles: &[&[i32]], ends: [i64; 2]) -> [i64; 2] {
    let heights = || profiles.iter().flat_map(|heights| between(heights, ends)).map(|&height| i64::from(height));
    [heights().min(), heights().max()].map(|height| height.unwrap_or(0))
}

/// How many h-units so many hundredths of a pixel upright show where the plot is so many metres wide.
fn showing(upright: i64, exaggeration: i64, across: i64) -> i64 {
    upright * (across * METRE) / (exaggeration * WIDTH)
}

/// The least of the steps 1, 2, 5, 10, 20, 50 and so on by which no more than `most` cover the span.
pub fn step(span: i64, most: i64) -> i64 {
    let least = upwards(span, most).max(1);
    let unit = 10_i64.pow(least.ilog10());
    [unit, 2 * unit, 5 * unit].into_iter().find(|&step| least <= step).unwrap_or(10 * unit)
}

/// The multiples of a step from one number to another, both included.
pub fn multiples(step: i64, from: i64, to: i64) -> impl Iterator<Item = i64> {
    let first = -(-from).div_euclid(step);
    (first..).map(move |times| times * step).take_while(move |&number| number <= to)
}
