//! The second calculation of a picture: where things lie on the sheet, in hundredths of a pixel, written from the rules and
//! apart from the package.

use std::ops::RangeInclusive;

use sight_tests::reference::road::{Curve, Road};

use crate::elements::Outline;

// The plot on the sheet.
pub const LEFT: i64 = 22_000;
pub const WIDTH: i64 = 128_000;
pub const TOP: i64 = 14_000;
pub const HEIGHT: i64 = 48_000;
const PROFILE_ROOM: i64 = 40_000;

/// A metre in h-units.
const METRE: i64 = 10_000;

/// The plot of a road's stretch: the road's length in metres, the stretch's first and last station, the metres that the plot is wide,
/// the exaggeration, and the h-units at the plot's lower edge and from there to its upper one.
pub struct Plot {
    length: i64,
    first: i64,
    last: i64,
    across: i64,
    pub exaggeration: i64,
    foot: i64,
    shown: i64,
}

/// The largest exaggeration at which every drawn profile is at most as high as its room: range / across × width × e.
fn exaggeration(across: i64, ranges: &[[i64; 2]]) -> i64 {
    let fits = |e: &i64| ranges.iter().all(|[low, high]| e * (high - low) * WIDTH <= PROFILE_ROOM * across * METRE);
    [500, 200, 100, 50, 20, 10, 5, 2].into_iter().find(fits).unwrap_or(1)
}

/// The first and last stations of a road's stretches, and how many metres a plot is wide. A road of up to 8,000 m has one stretch. A
/// longer one has the fewest of at most 8,000 m: the least multiple of 500 m with which so many are enough.
fn stretches(length: i64) -> (Vec<[i64; 2]>, i64) {
    let many = (1..).find(|many| many * 8_000 >= length).expect("some number is enough");
    let across = match many {
        1 => length,
        _ => (1..).map(|steps| 500 * steps).find(|across| many * across >= length).expect("some length is enough"),
    };
    ((0..many).map(|place| [place * across, ((place + 1) * across).min(length)]).collect(), across)
}

/// The least round step of which so many are as long as the span.
fn step(span: i64, most: i64) -> i64 {
    let round = (0..).flat_map(|zeros| [1, 2, 5].map(|digit| digit * 10_i64.pow(zeros)));
    round.into_iter().find(|step| step * most >= span).expect("some step is long enough")
}

/// The places of the labels that are drawn: each so many metres or more behind the one drawn before.
fn drawn(stations: &[i64], room: i64) -> Vec<usize> {
    let mut places: Vec<usize> = Vec::new();
    for (place, station) in stations.iter().enumerate() {
        if places.last().is_none_or(|&last| station - stations[last] >= room) {
            places.push(place);
        }
    }
    places
}

impl Plot {
    /// The plots of the stretches of a road, which have room for all its profiles.
    pub fn all(profiles: &[&[i32]]) -> Vec<Plot> {
        let stations = profiles[0].len();
        assert!(profiles.iter().all(|heights| heights.len() == stations));
        let length = stations as i64 - 1;
        let (ends, across) = stretches(length);
        let range = |&[first, last]: &[i64; 2]| {
            let own = profiles.iter().flat_map(|heights| &heights[first as usize..=last as usize]);
            let own: Vec<i64> = own.map(|&height| height.into()).collect();
            [own.iter().min(), own.iter().max()].map(|height| *height.expect("a stretch has stations"))
        };
        let ranges: Vec<[i64; 2]> = ends.iter().map(range).collect();
        let exaggeration = exaggeration(across, &ranges);
        let shown = HEIGHT * across * METRE / (exaggeration * WIDTH);
        let plot = |(&[first, last], [low, high]): (&[i64; 2], &[i64; 2])| {
            let foot = low - (shown - (high - low)) / 2;
            Plot { length, first, last, across, exaggeration, foot, shown }
        };
        ends.iter().zip(&ranges).map(plot).collect()
    }

    /// The name of a part: those of the stretches behind the first end with their first station.
    pub fn name(&self, part: &str) -> String {
        if self.first == 0 {
            part.to_string()
        } else {
            format!("{part}-{}", self.first)
        }
    }

    /// x of so many half metres, within the plot.
    pub fn across(&self, halves: i64) -> i64 {
        LEFT + (halves.clamp(2 * self.first, 2 * self.last) - 2 * self.first) * WIDTH / (2 * self.across)
    }

    /// x of the plot's right edge.
    pub fn right(&self) -> i64 {
        self.across(2 * self.last)
    }

    /// Whether a station is the stretch's own: the last one is the next stretch's, where there is one.
    fn has(&self, station: i64) -> bool {
        let own_last = if self.last == self.length { self.last } else { self.last - 1 };
        (self.first..=own_last).contains(&station)
    }

    /// The zones of which some station is the stretch's own.
    pub fn own(&self, zones: &[[u32; 2]]) -> Vec<[u32; 2]> {
        let own = |&&[first, last]: &&[u32; 2]| self.has(self.first.clamp(first.into(), last.into()));
        zones.iter().filter(own).copied().collect()
    }

    /// The middle of what is seen of a zone, rounded down to a station.
    fn middle(&self, [first, last]: &[u32; 2]) -> i64 {
        let [first, last] = [first, last].map(|&station| i64::from(station).clamp(self.first, self.last));
        (first + last) / 2
    }

    /// How far labels with stations are apart: a part of the plot, and 1.5 times that where the road has several stretches.
    fn station_room(&self, parts: i64) -> i64 {
        let room = self.across / parts;
        if self.across == self.length {
            room
        } else {
            3 * room / 2
        }
    }

    fn y(&self, height: i64) -> i64 {
        TOP + HEIGHT - (height - self.foot) * self.exaggeration * WIDTH / (self.across * METRE)
    }

    /// The stretch's stations.
    pub fn stations(&self) -> RangeInclusive<usize> {
        self.first as usize..=self.last as usize
    }

    /// The points of the profile at so many stations of the stretch.
    pub fn profile(&self, heights: &[i32], stations: RangeInclusive<usize>) -> Vec<(i64, i64)> {
        stations.map(|station| (self.across(2 * station as i64), self.y(heights[station].into()))).collect()
    }

    /// The rectangles of the stretch's zones: half a metre to each side, and no narrower than 2.5 pixels.
    pub fn zones(&self, zones: &[[u32; 2]], top: i64, height: i64) -> Vec<[i64; 4]> {
        let bar = |&[first, last]: &[u32; 2]| {
            let left = self.across(2 * i64::from(first) - 1);
            let right = self.across(2 * i64::from(last) + 1);
            [left, top, (right - left).max(250), height]
        };
        self.own(zones).iter().map(bar).collect()
    }

    /// The labels of the stretch's zones: x of their middles, and their stations.
    pub fn zone_labels(&self, zones: &[[u32; 2]]) -> Vec<(i64, String)> {
        let zones = self.own(zones);
        let middles: Vec<i64> = zones.iter().map(|zone| self.middle(zone)).collect();
        drawn(&middles, self.station_room(20)).into_iter().map(|place| self.zone_label(&zones[place])).collect()
    }

    fn zone_label(&self, zone: &[u32; 2]) -> (i64, String) {
        let [first, last] = zone;
        let text = if first == last { first.to_string() } else { format!("{first}&#8211;{last}") };
        (self.across(2 * self.middle(zone)), text)
    }

    /// The labels of two strips: first the zones that one of them alone has find room in it, then those of both in both.
    pub fn pair_labels(&self, strips: [&[[u32; 2]]; 2]) -> [Vec<(i64, String)>; 2] {
        let strips = strips.map(|zones| self.own(zones));
        let near =
            |one: &[u32; 2], other: &[u32; 2]| (self.middle(one) - self.middle(other)).abs() < self.station_room(20);
        let mut kept: [Vec<[u32; 2]>; 2] = [vec![], vec![]];
        for strip in [0, 1] {
            for zone in &strips[strip] {
                if !strips[1 - strip].contains(zone) && !kept[strip].iter().any(|other| near(zone, other)) {
                    kept[strip].push(*zone);
                }
            }
        }
        for zone in &strips[0] {
            if strips[1].contains(zone) && !kept.iter().flatten().any(|other| near(zone, other)) {
                kept.iter_mut().for_each(|kept| kept.push(*zone));
            }
        }
        kept.map(|mut zones| {
            zones.sort_unstable();
            zones.iter().map(|zone| self.zone_label(zone)).collect()
        })
    }

    /// The numbers of the station axis: at most 16 round steps, and the stretch's end where it has more room than a 32nd of the
    /// plot behind the last of them.
    pub fn station_numbers(&self) -> Vec<(i64, i64)> {
        let step = step(self.across, 16);
        let mut stations: Vec<i64> = (self.first..=self.last).filter(|station| station % step == 0).collect();
        if stations.last().is_some_and(|last| self.last - last > self.station_room(32)) {
            stations.push(self.last);
        }
        stations.into_iter().map(|station| (self.across(2 * station), station)).collect()
    }

    /// The numbers of the height axis, in h-units and with how many decimals: at most 10 round steps.
    pub fn heights(&self) -> Vec<(i64, i64, usize)> {
        let step = step(self.shown, 10);
        let decimals = (0..).find(|&decimals| step * 10_i64.pow(decimals) % METRE == 0).expect("h-units have four");
        let first = (self.foot..).find(|height| height % step == 0).expect("some height is a multiple");
        let heights = (0..).map(|steps| first + steps * step).take_while(|height| height - self.foot <= self.shown);
        heights.map(|height| (self.y(height), height, decimals as usize)).collect()
    }

    /// What is drawn of the curves that change the grade: a line to the road at the PVI, where that is the stretch's own, and the
    /// curve's shape, where that or a part of the curve is in the stretch. A crest bulges up, a sag down. The curve at the place of
    /// a change has its own class, and over it lies its shape as it is.
    pub fn curves(&self, road: &Road, heights: &[i32], old: Option<(usize, &Curve)>) -> Vec<Outline> {
        let mut outlines = Vec::new();
        let mut grade = road.first_grade;
        for (place, curve) in road.curves.iter().enumerate() {
            let is_there = self.has(curve.pvi.into());
            if curve.grade_out != grade && is_there {
                let (x, height) = (self.across(2 * i64::from(curve.pvi)), heights[curve.pvi as usize]);
                outlines.push(Outline::new("pvi", "MV", &[(x, 13_200), (x, self.y(height.into()))]));
            }
            let reaches_in = curve.begin().max(self.first) < curve.end().min(self.last);
            if curve.grade_out != grade && (is_there || reaches_in) {
                let crest = curve.grade_out < grade;
                let class = if crest { "crest" } else { "sag" };
                match old.filter(|&(changed, _)| changed == place) {
                    None => outlines.push(self.shape(class, curve, crest)),
                    Some((_, old)) => {
                        outlines.push(self.shape(&format!("{class} changed"), curve, crest));
                        outlines.push(self.shape("old", old, crest));
                    }
                }
            }
            grade = curve.grade_out;
        }
        outlines
    }

    /// The part of a curve's shape between two of its metres. It is a parabola; so the point that bends a part lies above its middle,
    /// as high as twice the parabola there less the mean of the part's ends.
    fn part_of_shape(&self, class: &str, curve: &Curve, [from, to]: [i64; 2], crest: bool) -> Outline {
        let (ends, depth) = if crest { (13_000, -2_000) } else { (12_000, 2_000) };
        let length = curve.end() - curve.begin();
        let [start, stop] = [from, to].map(|station| station - curve.begin());
        let parabola = |metres: i64| metres * (length - metres);
        let above = |part: i64| ends + depth * part / (length * length);
        let bend = (start + stop) * (2 * length - start - stop) - parabola(start) - parabola(stop);
        let [left, right] = [from, to].map(|station| self.across(2 * station));
        let [left_y, right_y] = [start, stop].map(|metres| above(2 * parabola(metres)));
        let points = [(left, ends), (left, left_y), ((left + right) / 2, above(bend)), (right, right_y), (right, ends)];
        Outline::new(class, "MLQLZ", &points)
    }

    fn shape(&self, class: &str, curve: &Curve, crest: bool) -> Outline {
        let goes_on =
            [self.first > 0 && curve.begin() < self.first, self.last < self.length && self.last < curve.end()];
        if curve.length > 0 && goes_on != [false; 2] {
            let from = if goes_on[0] { self.first } else { curve.begin() };
            let to = if goes_on[1] { self.last } else { curve.end() };
            return self.part_of_shape(class, curve, [from, to], crest);
        }
        let [begin, pvi, end] = [curve.begin(), curve.pvi.into(), curve.end()].map(|station| self.across(2 * station));
        let (commands, points) = match (curve.length, crest) {
            (0, true) => ("MLLZ", [(pvi - 550, 13_000), (pvi, 12_000), (pvi + 550, 13_000)]),
            (0, false) => ("MLLZ", [(pvi - 550, 12_000), (pvi, 13_000), (pvi + 550, 12_000)]),
            (_, true) => ("MQZ", [(begin, 13_000), (pvi, 11_000), (end, 13_000)]),
            (_, false) => ("MQZ", [(begin, 12_000), (pvi, 14_000), (end, 12_000)]),
        };
        Outline::new(class, commands, &points)
    }

    /// The numbers above the stretch's own curves, from 0 on. From one to the next it is a 64th of the plot or more, and so from that
    /// of a changed curve, which is always there, to the others.
    pub fn curve_numbers(&self, road: &Road, changed: Option<usize>) -> Vec<(i64, String)> {
        let room = self.across / 64;
        let station = |place: usize| i64::from(road.curves[place].pvi);
        let too_near = |place: usize, own: usize| own != place && (station(place) - station(own)).abs() < room;
        let places = (0..road.curves.len()).filter(|&place| self.has(station(place)));
        let places: Vec<usize> = places.filter(|&place| !changed.is_some_and(|own| too_near(place, own))).collect();
        let stations: Vec<i64> = places.iter().map(|&place| station(place)).collect();
        let number = |label: usize| (self.across(2 * stations[label]), places[label].to_string());
        drawn(&stations, room).into_iter().map(number).collect()
    }
}
