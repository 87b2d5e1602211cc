//! Pictures of the lane coming back, and of both lanes.

use picture::{svg, Direction, Lane, Passing, Profile};
use sight_tests::drawn::Drawn;
use sight_tests::random::Random;
use sight_tests::reference::file::read;
use sight_tests::reference::road::Road;
use sight_tests::roads;

use crate::by_hand::{profile, NO_ZONES};
use crate::elements::{Element, Elements};
use crate::page::LETTER;
use crate::rules::{Plot, HEIGHT, LEFT, TOP, WIDTH};
use crate::{
    compare_axes, compare_curve_numbers, compare_drawn, compare_line, compare_profile, compare_row, compare_stretches,
    driven, straight, towards, STRIPS,
};

// ---- the comparison
/// Compares the picture of both lanes of a road, with rows for passing where a distance is given, with the second calculation. Answers
/// how many zones the lane coming back has.
fn compare(road: &Road, distance: Option<u32>) -> usize {
    let (there, back) = (Drawn::of(road), Drawn::back(road));
    let passing = distance.map(|distance| there.passing_zones(distance));
    let own: Vec<&Vec<[u32; 2]>> = there.zones.iter().chain(passing.iter().flatten()).collect();
    let rows = own.len() + 5;
    // Each set has a heading, as high as a row.
    let height = 68_000 + 4_400 * (rows as i64 + 2);
    let text = there.picture_with(&back, road, distance);
    compare_headings(road, [&there, &back], distance, &text);
    let plots = Plot::all(&[&there.heights]);
    for (plot, all) in plots.iter().zip(compare_stretches(&text, plots.len(), height)) {
        compare_profile(&there, plot, &all);
        compare_lines([&there, &back], plot, height, &all);
        assert_eq!(all.with("class", "lane").count(), rows);
        compare_set(&there, &own, 66_500, plot, &all);
        compare_set(&back, &back.zones.each_ref(), 66_500 + 4_400 * (own.len() as i64 + 1), plot, &all);
        compare_axes(plot, height, &all);
        assert_eq!(all.outlines()[3..], plot.curves(road, &there.heights, None), "{road:?}");
        compare_curve_numbers(road, None, plot, &all);
    }
    back.zones.iter().map(Vec::len).sum()
}

/// The line below the title says what both lanes share, and the heading of each set what its lane needs.
fn compare_headings(road: &Road, lanes: [&Drawn; 2], distance: Option<u32>, text: &str) {
    let (speed, purpose, stretches) = (road.speed, road.purpose, 1 + text.matches("<g class=\"stretch\"").count());
    let passing = distance.map(|distance| format!("; passing sight {distance} m")).unwrap_or_default();
    let [upper, lower] = lanes.map(|drawn| towards(drawn.direction));
    let lines = format!("the upper line towards {upper}, the lower one towards {lower}");
    let both = format!(">{speed} km/h, purpose {purpose}{passing}; sight in both directions: {lines}; vertical ");
    assert_eq!(text.matches(&both).count(), 1, "{road:?}");
    for drawn in lanes {
        let ([stopping, decision], grade) = (drawn.distances, driven(drawn));
        let needs = format!("marked with grade {grade}: stopping sight {stopping} m, decision sight {decision} m");
        let heading = format!(">Sight in the direction of {}, {needs}</text>", towards(drawn.direction));
        assert_eq!(text.matches(&heading).count(), stretches, "{heading} of {road:?}");
    }
}

/// The tint of each lane, and its line: that of the first on the road, that of the other 15 pixels below it.
fn compare_lines(lanes: [&Drawn; 2], plot: &Plot, height: i64, all: &Elements) {
    let tints = (0..all.0.len()).filter(|&place| all.0[place].get("class") == "tint");
    let tinted: Vec<_> = tints.map(|tint| all.rectangles(tint)).collect();
    assert_eq!(tinted, lanes.map(|drawn| plot.zones(&drawn.zones[0], TOP, HEIGHT)));
    let profile = format!("#{}", plot.name("profile"));
    let lines: Vec<&Element> = all.with("href", &profile).collect();
    for ((drawn, line), (word, moved)) in
        lanes.into_iter().zip(lines.chunks(5)).zip([("", ""), ("other-", "translate(0 1500)")])
    {
        compare_line(drawn, plot, height, all, word, line);
        assert!(line.iter().all(|part| part.get("transform") == moved), "{word}");
    }
}

/// The rows of a lane in their group, below its heading.
fn compare_set(drawn: &Drawn, rows: &[&Vec<[u32; 2]>], top: i64, plot: &Plot, all: &Elements) {
    let class = match drawn.direction {
        Direction::Rising => "rising",
        Direction::Falling => "falling",
    };
    let set = all.only("class", class).0;
    let headings: Vec<&Element> = all.inside(set).filter(|element| element.name == "text").collect();
    assert!(headings.iter().map(|heading| heading.number("y")).eq([top + 2_850]), "{class}");
    for ((zones, strip), top) in rows.iter().zip(STRIPS).zip((top + 4_400..).step_by(4_400)) {
        compare_row(zones, strip, top, plot, all, all.group_in(set, strip[0]));
    }
    assert_eq!(all.inside(set).filter(|element| element.name == "g").count(), rows.len(), "{class}");
}

// ---- roads
/// The lane coming back alone, on runs of short crests and other roads, and on roads of several stretches.
#[test]
fn the_lane_coming_back() {
    let mut random = Random::new(190);
    let mut zones = 0;
    for round in 0..300 {
        let room = random.within(2..=100);
        let mut road =
            if round % 3 < 2 { roads::run_of_crests(&mut random, room) } else { roads::any_road(&mut random) };
        if road.length <= 200 {
            road.length += random.within(0..=100);
        }
        road.speed = random.one_of(&[20, 25, 30, 35, 40]);
        zones += compare_drawn(&road, &Drawn::back(&road));
    }
    assert!(zones > 600, "{zones} zones");
    for length in [1, 20, 21, 8_000, 8_001, 16_001, 100_000] {
        for first_grade in [-1_500, 0, 1_500] {
            let road = straight(length, 0, first_grade);
            assert_eq!(compare_drawn(&road, &Drawn::back(&road)), 2);
        }
    }
}

/// Both lanes, with rows for passing and without.
#[test]
fn both_lanes() {
    let mut random = Random::new(191);
    let mut zones = 0;
    for round in 0..300 {
        let room = random.within(2..=150);
        let mut road = match round % 3 {
            0 => roads::steeper(roads::run_of_crests(&mut random, room)),
            1 => roads::run_of_crests(&mut random, room),
            _ => roads::any_road(&mut random),
        };
        if road.length <= 200 {
            road.length += random.within(0..=100);
        }
        road.speed = random.one_of(&[20, 25, 30, 35, 40]);
        let distance = random.once_in(3).then(|| random.within(15..=60));
        zones += compare(&road, distance);
    }
    assert!(zones > 600, "{zones} zones");
}

/// Both lanes of roads of several stretches.
#[test]
fn long_roads() {
    let mut random = Random::new(192);
    for round in 0..9 {
        let run = roads::run_of_crests(&mut random, 300);
        let before = 8_000 - random.within(0..=run.length);
        let crests = Road { length: 15_900, ..roads::moved(roads::steeper(run), before) };
        let road = if round % 3 == 0 { roads::any_long_road(&mut random) } else { crests };
        compare(&Road { speed: random.one_of(&[20, 25, 30]), ..road }, (round % 2 == 0).then_some(40));
    }
}

// ---- by hand
/// 1,281 stations, which are drawn a pixel apart, of which the first 20 are not judged on the way back: what is judged begins half a metre
/// behind station 19. Without such a zone all is judged.
#[test]
fn what_is_judged_on_the_way_back() {
    for (not_judged, left) in [(vec![[0, 19]], LEFT + 1_950), (vec![], LEFT), (vec![[0, 1_280]], LEFT + WIDTH)] {
        let zones = [vec![], vec![], vec![], not_judged, vec![]];
        let level = profile(&[0; 1_281], &[], &zones);
        let lane = Lane { direction: Direction::Falling, ..level.lane };
        let all = Elements::of(&svg(&Profile { lane, ..level }));
        let judged = all.only("id", "judged").0;
        assert!(all.inside(judged).map(|element| element.path().1).eq([[left, 0, 160_000, 90_000, left]]));
    }
}

/// The lines of headings stay on the sheet when their numbers are as long as can be.
#[test]
fn the_longest_headings() {
    let level = profile(&[0; 8_001], &[], &NO_ZONES);
    let lane = |direction| Lane { direction, grade: -1_500, stopping: 1_000, decision: 1_000, zones: &NO_ZONES };
    let all = Elements::of(&svg(&Profile {
        speed: 130,
        lane: lane(Direction::Rising),
        other_lane: Some(lane(Direction::Falling)),
        passing: Some(Passing { distance: 8_000, zones: &[vec![], vec![]] }),
        ..level
    }));
    let (place, line) = all.only("class", "sub");
    let words = line.text.clone() + &all.words(place).collect::<String>();
    assert!(words.ends_with("vertical exaggeration 500 : 1"), "{words}");
    assert!(words.contains("130 km/h, purpose 1; passing sight 8000 m; sight in both directions: "), "{words}");
    let letters = words.replace("&#8594;", ">").replace("&#8592;", "<").chars().count() as i64;
    assert!(1_500 + letters * 1_500 * LETTER / 100 <= 160_000 - 1_500, "{letters} letters");
    assert_eq!(all.with("class", "sub letter").count(), 2);
}

/// A picture to the byte: both lanes of the README's road.
#[test]
fn a_picture_that_was_looked_at() {
    let road = read(include_bytes!("../../../../roads/three-crests.vcp")).expect("the road is accepted");
    let picture = Drawn::of(&road).picture_with(&Drawn::back(&road), &road, None);
    assert!(picture == include_str!("../../../../docs/both-lanes.svg"));
}
