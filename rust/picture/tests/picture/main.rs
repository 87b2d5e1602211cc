//! Pictures, taken apart and compared with a separately written calculation. Heights, distances and zones are those of the
//! second calculation too.

use std::fs;
use std::path::Path;

use picture::Direction;
use sight_tests::drawn::Drawn;
use sight_tests::random::Random;
use sight_tests::reference::file::read;
use sight_tests::reference::road::Road;
use sight_tests::roads::{self, EXAMPLE};

use crate::elements::{stretches, Element, Elements};
use crate::rules::{Plot, HEIGHT, LEFT, TOP};

mod by_hand;
mod elements;
mod lanes;
mod page;
mod passing;
mod preview;
mod rules;

/// The strips in the order of a profile's zones, and behind them those of passing: class, letter and meaning.
const STRIPS: [[&str; 3]; 7] = [
    ["S", "S", "stopping sight lacking"],
    ["D", "D", "decision sight lacking"],
    ["R", "R", "reduced decision zone"],
    ["ns", "s", "stopping not judged"],
    ["nd", "d", "decision not judged"],
    ["P", "P", "passing sight lacking"],
    ["np", "p", "passing not judged"],
];

// ---- the comparison
/// Compares a road's picture with the second calculation, and answers how many zones it has.
fn compare(road: &Road) -> usize {
    compare_drawn(road, &Drawn::of(road))
}

/// The same of either lane.
fn compare_drawn(road: &Road, drawn: &Drawn) -> usize {
    let plots = Plot::all(&[&drawn.heights]);
    let text = drawn.picture(road);
    compare_headings(road, drawn, &plots[0], &text, "");
    for (plot, all) in plots.iter().zip(compare_stretches(&text, plots.len(), 90_000)) {
        compare_profile(drawn, plot, &all);
        compare_zones(drawn, plot, 90_000, &all);
        compare_strips(&drawn.zones, plot, &all);
        compare_axes(plot, 90_000, &all);
        assert_eq!(all.outlines()[3..], plot.curves(road, &drawn.heights, None), "{road:?}");
        compare_curve_numbers(road, None, plot, &all);
    }
    drawn.zones.iter().map(Vec::len).sum()
}

/// There are so many stretches, each so high with the headings, and so much lower than the one before; no two elements have the same
/// name, and none uses one that is not there. Answers the stretches.
fn compare_stretches(text: &str, many: usize, height: i64) -> Vec<Elements> {
    let all = Elements::of(text);
    assert_eq!(all.0[0].name, "svg");
    let step = height - 7_000;
    assert_eq!(all.height(), height + (many as i64 - 1) * step);
    let mut names: Vec<&str> = all.0.iter().map(|element| element.get("id")).filter(|id| !id.is_empty()).collect();
    names.sort_unstable();
    assert!(names.windows(2).all(|pair| pair[0] < pair[1]), "{names:?}");
    for element in &all.0 {
        let clip = element.get("clip-path").trim_start_matches("url(").trim_end_matches(')');
        let used = [element.get("href"), clip].map(|name| name.trim_start_matches('#'));
        assert!(used.iter().all(|name| name.is_empty() || names.binary_search(name).is_ok()), "{used:?}");
    }
    let (down, stretches): (Vec<i64>, Vec<Elements>) = stretches(text).into_iter().unzip();
    assert_eq!(down, (0..many).map(|place| place as i64 * step).collect::<Vec<_>>());
    stretches
}

/// A grade in percent.
fn percent(grade: i32) -> String {
    let minus = if grade < 0 { "&#8722;" } else { "" };
    format!("{minus}{}.{:02} %", grade.abs() / 100, grade.abs() % 100)
}

/// The stations that a driver goes towards, with an arrow to the right or to the left.
fn towards(direction: Direction) -> &'static str {
    match direction {
        Direction::Rising => "rising stations &#8594;",
        Direction::Falling => "falling stations &#8592;",
    }
}

/// The grade that a lane is marked with, and for the lane coming back, of which it has the other sign, whether that is down or up.
fn driven(drawn: &Drawn) -> String {
    let word = match (drawn.direction, drawn.grade) {
        (Direction::Rising, _) | (_, 0) => "",
        (Direction::Falling, grade) if grade > 0 => " (downhill)",
        (Direction::Falling, _) => " (uphill)",
    };
    format!("{}{word}", percent(drawn.grade))
}

/// The title, which a change stands behind, and the line below it.
fn compare_headings(road: &Road, drawn: &Drawn, plot: &Plot, text: &str, change: &str) {
    let (length, speed, purpose) = (road.length, road.speed, road.purpose);
    let ([stopping, decision], exaggeration) = (drawn.distances, plot.exaggeration);
    let grade = driven(drawn);
    let towards = towards(drawn.direction);
    let distances = format!("stopping sight {stopping} m, decision sight {decision} m (purpose {purpose});");
    for words in [
        format!("<title>Sight along the road, {length} m{change}</title>"),
        format!(">Sight along the road, {length} m{change}</text>"),
        format!(">{speed} km/h, marked with grade {grade}: {distances}"),
        format!("; sight in the direction of {towards}; vertical exaggeration "),
        format!("vertical exaggeration <tspan class=\"letter\">{exaggeration} : 1</tspan>"),
    ] {
        assert_eq!(text.matches(&words).count(), 1, "{words} of {road:?}");
    }
}

fn compare_profile(drawn: &Drawn, plot: &Plot, all: &Elements) {
    let profile = plot.profile(&drawn.heights, plot.stations());
    assert!(profile.iter().all(|&(_, y)| (TOP..=TOP + HEIGHT).contains(&y)), "the profile is in the plot");
    assert_eq!(all.only("id", &plot.name("profile")).1.points(), profile);
    let earth = [&[(LEFT, TOP + HEIGHT)], &profile[..], &[(plot.right(), TOP + HEIGHT)]].concat();
    assert_eq!(all.only("class", "earth").1.points(), earth);
}

/// The tint of the plot and the parts that are cut out of the road, on a stretch that is so high.
fn compare_zones(drawn: &Drawn, plot: &Plot, height: i64, all: &Elements) {
    let tint = all.only("class", "tint").0;
    assert_eq!(all.rectangles(tint), plot.zones(&drawn.zones[0], TOP, HEIGHT));
    let profile = format!("#{}", plot.name("profile"));
    let line: Vec<&Element> = all.with("href", &profile).collect();
    compare_line(drawn, plot, height, all, "", &line);
    assert!(line.iter().all(|part| part.get("transform").is_empty()));
}

/// The parts of a lane's line, whose names begin with a word.
fn compare_line(drawn: &Drawn, plot: &Plot, height: i64, all: &Elements, word: &str, line: &[&Element]) {
    let [lacking, decision_lacking, reduced, not_judged, _] = &drawn.zones;
    let name = |part: &str| plot.name(&format!("{word}{part}"));
    for (part, zones) in [("S", lacking), ("R", reduced), ("D", decision_lacking), ("ns", not_judged)] {
        let group = all.only("id", &name(part)).0;
        assert_eq!(all.rectangles(group), plot.zones(zones, TOP, HEIGHT), "{part}");
    }
    let line = line.iter().map(|part| (part.get("class"), part.get("clip-path").to_string()));
    let parts = [("road ns", "ns"), ("road", "judged"), ("road D", "D"), ("road R", "R"), ("road S", "S")];
    let parts = parts.map(|(class, part)| (class, format!("url(#{})", name(part))));
    assert_eq!(line.collect::<Vec<_>>(), parts);
    let judged = all.only("id", &name("judged")).0;
    let paths: Vec<_> = all.inside(judged).map(Element::path).collect();
    let [first, last] = not_judged[0].map(i64::from);
    let [left, right] = match drawn.direction {
        Direction::Rising => [0, plot.across(2 * first - 1)],
        Direction::Falling => [plot.across(2 * last + 1), 160_000],
    };
    assert_eq!(paths, [("MHVHZ".to_string(), vec![left, 0, right, height, left])]);
}

/// A strip for each of these lists of zones, and no other.
fn compare_strips(lists: &[Vec<[u32; 2]>], plot: &Plot, all: &Elements) {
    assert_eq!(all.with("class", "lane").count(), lists.len());
    for ((zones, strip), top) in lists.iter().zip(STRIPS).zip((66_500..).step_by(4_400)) {
        let group = all.only("class", strip[0]).0;
        compare_row(zones, strip, top, plot, all, group);
    }
}

/// A strip of its class, letter and meaning in a group, from its upper edge on.
fn compare_row(
    zones: &[[u32; 2]],
    [class, letter, meaning]: [&str; 3],
    top: i64,
    plot: &Plot,
    all: &Elements,
    group: usize,
) {
    assert_eq!(all.0[group].get("transform"), format!("translate(0 {top})"), "{class}");
    let words = format!("&#160; {meaning}");
    assert_eq!(all.words(group).take(2).collect::<Vec<_>>(), [&words, letter], "{class}");
    compare_strip(zones, &plot.zone_labels(zones), [1_500, 1_200], plot, all, group);
}

/// A strip in a group: its bars from their upper edge on, the labels at a height, and the number of zones.
fn compare_strip(
    zones: &[[u32; 2]],
    labels: &[(i64, String)],
    [top, height]: [i64; 2],
    plot: &Plot,
    all: &Elements,
    group: usize,
) {
    let bars = plot.zones(zones, top, 1_800);
    assert_eq!(all.rectangles(group), bars);
    let stations: Vec<&Element> = all.inside(group).filter(|element| element.get("class") == "zone").collect();
    assert!(stations.iter().all(|station| station.number("y") == height));
    assert_eq!(stations.into_iter().map(Element::label).collect::<Vec<_>>(), labels);
    let plural = if bars.len() == 1 { "" } else { "s" };
    let tally = (plot.right() + 1_200, format!("{} zone{plural}", bars.len()));
    let texts = all.inside(group).filter(|element| element.name == "text" && element.text.contains(" zone"));
    assert!(texts.map(Element::label).any(|text| text == tally), "{tally:?}");
    let lanes = all.inside(group).filter(|element| element.get("class") == "lane").map(|lane| lane.path().1);
    let lane = vec![LEFT, top, plot.right(), top + 1_800, LEFT];
    assert!(lanes.into_iter().any(|own| own == lane), "{lane:?}");
}

/// The grid's lines and their numbers, on a stretch that is so high: first those of the stations, then those of the heights.
fn compare_axes(plot: &Plot, height: i64, all: &Elements) {
    let stations = plot.station_numbers();
    let numbers = all.with("y", "64000").filter(|element| element.get("class") == "middle").map(Element::label);
    let expected: Vec<_> = stations.iter().map(|&(x, station)| (x, station.to_string())).collect();
    assert_eq!(numbers.collect::<Vec<_>>(), expected);
    let unit = all.with("y", "64000").find(|element| element.get("class").is_empty()).expect("the axis has its unit");
    assert_eq!(unit.label(), (plot.right() + 3_000, "station, m".to_string()));

    let heights = plot.heights();
    let numbers = all.with("class", "height").map(|element| {
        let (height, decimals) = metres(&element.text);
        (element.number("y"), height, decimals)
    });
    assert_eq!(numbers.collect::<Vec<_>>(), heights);

    let [frame] = all.with("class", "frame").collect::<Vec<_>>()[..] else { panic!("one frame") };
    let edges = [LEFT, TOP, plot.right() - LEFT, HEIGHT];
    assert_eq!(["x", "y", "width", "height"].map(|name| frame.number(name)), edges);
    let upright = |&(x, _): &(i64, i64)| vec![x, TOP, TOP + HEIGHT, x, 66_800, height - 1_400];
    let across = |&(y, ..): &(i64, i64, usize)| vec![LEFT, y, plot.right()];
    let lines: Vec<_> = stations.iter().map(upright).chain(heights.iter().map(across)).collect();
    assert_eq!(all.with("class", "grid").map(|line| line.path().1).collect::<Vec<_>>(), lines);
}

/// A number in metres: its h-units, and how many decimals it has.
fn metres(text: &str) -> (i64, usize) {
    let size = text.strip_prefix("&#8722;").unwrap_or(text);
    let (whole, decimals) = size.split_once('.').unwrap_or((size, ""));
    assert_eq!(size.contains('.'), !decimals.is_empty(), "{text}");
    assert!(size.bytes().all(|letter| letter == b'.' || letter.is_ascii_digit()), "{text}");
    let units: i64 = format!("{whole}{decimals:0<4}").parse().expect("digits");
    assert!(units != 0 || size == text, "zero has no sign");
    (if size == text { units } else { -units }, decimals.len())
}

/// The numbers above the curves, where a changed one comes first.
fn compare_curve_numbers(road: &Road, changed: Option<usize>, plot: &Plot, all: &Elements) {
    let numbers: Vec<_> = all.with("y", "11500").map(Element::label).collect();
    assert_eq!(numbers, plot.curve_numbers(road, changed));
}

// ---- roads
#[test]
fn random_runs_of_short_crests() {
    let mut random = Random::new(71);
    let mut zones = 0;
    for _ in 0..500 {
        let room = random.within(2..=100);
        let mut road = roads::run_of_crests(&mut random, room);
        road.length += random.within(0..=100);
        road.speed = random.one_of(&[20, 25, 30, 35, 40]);
        zones += compare(&road);
    }
    assert!(zones > 1_000, "{zones} zones");
}

#[test]
fn random_roads() {
    let mut random = Random::new(72);
    for round in 0..200 {
        let road = match round % 4 {
            0 => roads::any_road(&mut random),
            1 => roads::breaks(&mut random, 100),
            2 => roads::one_curve(&mut random, 500),
            _ => roads::sparse(&mut random, 100),
        };
        compare(&road);
        compare(&roads::gentler(road, 100));
    }
}

/// The lowest and the highest start, the steepest road up and down, and the shortest and the longest.
#[test]
fn edges() {
    for length in [1, 2, 20, 21, 7_999, 8_000] {
        for start_height in [-10_000_000, 0, 90_000_000] {
            for first_grade in [-1_500, -1, 0, 1, 1_500] {
                assert_eq!(compare(&straight(length, start_height, first_grade)), 2);
            }
        }
    }
    compare(&roads::longest(&mut Random::new(73)));
    compare(&Road { speed: 30, ..roads::full(&mut Random::new(75)) });
}

/// A road without curves, in the version that takes its length.
fn straight(length: u32, start_height: i32, first_grade: i16) -> Road {
    let version = if length > 8_000 { 2 } else { 1 };
    Road { version, speed: 20, purpose: 1, length, start_height, first_grade, curves: Vec::new() }
}

/// The lengths at which there is a stretch more, or the stretches are longer by a step, and the longest road.
#[test]
fn edges_of_stretches() {
    for (length, stretches, across) in [
        (8_001, 2, 4_500),
        (9_000, 2, 4_500),
        (9_001, 2, 5_000),
        (16_000, 2, 8_000),
        (16_001, 3, 5_500),
        (97_500, 13, 7_500),
        (97_501, 13, 8_000),
        (100_000, 13, 8_000),
    ] {
        let road = straight(length, 0, if length % 2 == 0 { -1_500 } else { 3 });
        assert_eq!(compare(&road), 2);
        let text = Drawn::of(&road).picture(&road);
        assert_eq!(text.matches("<g class=\"stretch\"").count(), stretches - 1, "{length}");
        assert!(text.contains(&format!("<polyline id=\"profile-{across}\"")), "{length}");
    }
}

/// Runs of short crests over the end of a stretch, some with a curve across it, and other long roads.
#[test]
fn long_roads() {
    let mut random = Random::new(126);
    let (mut zones, mut across) = (0, 0);
    for round in 0..24 {
        let mut road = if round % 4 == 0 {
            roads::any_long_road(&mut random)
        } else {
            let run = roads::run_of_crests(&mut random, 300);
            let before = 8_000 - random.within(0..=run.length);
            Road { length: random.one_of(&[15_900, 16_000]), ..roads::moved(roads::steeper(run), before) }
        };
        road.speed = random.one_of(&[20, 25, 30]);
        across += road.curves.iter().filter(|curve| curve.begin() < 8_000 && 8_000 < curve.end()).count();
        zones += compare(&road);
    }
    assert!(zones > 100 && across > 3, "{zones} zones, {across} curves across the end of a stretch");
}

/// Two pictures to the byte: the README's, which has curves, and that of the rules' example, which has a break.
#[test]
fn pictures_that_were_looked_at() {
    let root = Path::new(env!("CARGO_MANIFEST_DIR")).join("../..");
    let three_crests = fs::read(root.join("roads/three-crests.vcp")).expect("the road ships with the repository");
    for (file, picture) in [
        (&three_crests[..], include_str!("../../../../docs/three-crests.svg")),
        (&EXAMPLE, include_str!("example.svg")),
    ] {
        let road = read(file).expect("the road is accepted");
        assert!(Drawn::of(&road).picture(&road) == picture, "{road:?}");
    }
}
