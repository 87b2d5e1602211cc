//! Pictures with the rows of passing: the rows themselves, and what else differs from the picture without them.

use picture::{svg, Direction, Lane, Passing, Profile};
use sight_tests::drawn::Drawn;
use sight_tests::random::Random;
use sight_tests::reference::file::read;
use sight_tests::reference::road::Road;
use sight_tests::roads::{self, EXAMPLE};

use crate::elements::Elements;
use crate::page::LETTER;
use crate::rules::Plot;
use crate::{compare_axes, compare_stretches, compare_strips, straight};

/// The classes of all bars, and the ground that they stand on.
const CLASSES: [&str; 8] = ["S", "D", "R", "ns", "nd", "P", "np", "lane"];

// ---- the comparison
/// Compares a road's picture that has these zones of passing with the second calculation, and where the road has one stretch
/// with the picture that has none.
fn compare(road: &Road, distance: u32, zones: &[Vec<[u32; 2]>; 2]) {
    let drawn = Drawn::of(road);
    let text = svg(&drawn.profile(road, Some(Passing { distance, zones })));
    let plots = Plot::all(&[&drawn.heights]);
    for (plot, all) in plots.iter().zip(compare_stretches(&text, plots.len(), 98_800)) {
        compare_strips(&[&drawn.zones[..], zones].concat(), plot, &all);
        compare_axes(plot, 98_800, &all);
    }
    if plots.len() == 1 {
        compare_with_none(road, &drawn, distance, &text);
    }
}

/// The picture differs from the one without zones of passing by two rows, and by what follows from them.
fn compare_with_none(road: &Road, drawn: &Drawn, distance: u32, text: &str) {
    let key = r#"<path class="crest" d="M1500 "#;
    let (before, rest) = text.split_once(r#"<g class="P""#).expect("there is a row P");
    let (rows, behind) = rest.split_once(key).expect("the key of the curves stands behind the rows");
    assert_eq!(rows.matches("<g ").count(), 1, "the row p stands behind the row P");
    assert!(changed(&drawn.picture(road), distance) == format!("{before}{key}{behind}"), "{road:?}");
}

/// A picture without rows of passing, with all that they change in it: its height, the foot of the stations' lines, the
/// colours, and the distance in the line of headings.
fn changed(picture: &str, distance: u32) -> String {
    let lines = picture.matches(" 66800V").count();
    let words = format!("); passing sight {distance} m; sight in the direction");
    let changes = [
        (1, r#" 90000" width="1600" height="900">"#, r#" 98800" width="1600" height="988">"#),
        (1, "</style>", concat!(include_str!("../../src/passing.css"), "</style>")),
        (1, r##"height="90000" fill="#fff""##, r##"height="98800" fill="#fff""##),
        (1, "); sight in the direction", &words),
        (lines, "V88600\"", "V97400\""),
        (1, "V90000H0Z", "V98800H0Z"),
    ];
    changes.into_iter().fold(picture.to_string(), |text, (times, before, after)| {
        assert_eq!(text.matches(before).count(), times, "{before}");
        text.replace(before, after)
    })
}

// ---- zones
/// Zones one behind the other on a road of this length, most of them of few stations.
fn any_zones(random: &mut Random, length: u32) -> Vec<[u32; 2]> {
    let mut zones = Vec::new();
    let mut free = 0;
    loop {
        let first = free + random.of_any_size(length) - 1;
        let last = first + random.of_any_size(length) - 1;
        if last > length {
            return zones;
        }
        zones.push([first, last]);
        free = last + 2;
    }
}

#[test]
fn random_zones() {
    let mut random = Random::new(77);
    let mut zones = 0;
    for _ in 0..500 {
        let room = random.within(2..=300);
        let mut road = roads::run_of_crests(&mut random, room);
        road.length += random.within(0..=100);
        let lists = [(); 2].map(|()| any_zones(&mut random, road.length));
        compare(&road, random.of_any_size(8_000), &lists);
        zones += lists.concat().len();
    }
    assert!(zones > 2_000, "{zones} zones");
}

/// The zones of the second calculation, which the picture for a distance is drawn with.
#[test]
fn random_roads() {
    let mut random = Random::new(78);
    let mut both = 0;
    for round in 0..200 {
        let road = match round % 4 {
            0 => roads::any_road(&mut random),
            1 => roads::breaks(&mut random, 200),
            2 => roads::full(&mut random),
            _ => roads::run_of_crests(&mut random, 200),
        };
        let drawn = Drawn::of(&road);
        let distance = random.within(1..=road.length.min(500));
        let zones = &drawn.passing_zones(distance);
        compare(&road, distance, zones);
        both += usize::from(zones.iter().all(|zones| !zones.is_empty()));
    }
    assert!(both > 50, "{both} roads with zones of both kinds");
}

/// Every other station alone.
fn alone(length: u32) -> Vec<[u32; 2]> {
    (0..=length).step_by(2).map(|station| [station; 2]).collect()
}

/// No zone, all stations, every other station alone, and the road's ends.
#[test]
fn edges() {
    for length in [1, 2, 20, 300, 8_000, 8_001] {
        let road = straight(length, 0, 0);
        let lists = [vec![], vec![[0, length]], alone(length), vec![[0, 0]], vec![[length, length]]];
        for (place, lacking) in lists.iter().enumerate() {
            let not_judged = &lists[(place + 1) % lists.len()];
            compare(&road, length, &[lacking.clone(), not_judged.clone()]);
        }
    }
}

/// Zones of any kind on roads of several stretches, and so many on the longest that a picture of more than proportional time would
/// be felt.
#[test]
fn long_roads() {
    let mut random = Random::new(127);
    for length in [12_000, 16_000, 40_000] {
        let lists = [(); 2].map(|()| any_zones(&mut random, length));
        compare(&straight(length, 0, 0), 8_000, &lists);
    }
    compare(&straight(100_000, 0, 0), 1, &[alone(100_000), alone(100_000)]);
}

// ---- words and colours
/// The line of headings stays on the sheet, with as much room behind it as before it, when its numbers are as long as
/// can be.
#[test]
fn the_longest_headings() {
    let passing = Some(Passing { distance: 8_000, zones: &[vec![], vec![]] });
    let all = Elements::of(&svg(&Profile {
        speed: 130,
        purpose: 5,
        lane: Lane {
            direction: Direction::Rising,
            grade: -1_500,
            stopping: 1_000,
            decision: 1_000,
            zones: &[vec![], vec![], vec![], vec![], vec![]],
        },
        other_lane: None,
        first_grade: 0,
        curves: &[],
        heights: &vec![0; 100_001],
        passing,
    }));
    let (place, line) = all.only("class", "sub");
    let words = line.text.clone() + &all.words(place).collect::<String>();
    assert!(words.ends_with("vertical exaggeration 500 : 1"), "{words}");
    assert!(words.contains(" 1000 m (purpose 5); passing sight 8000 m; sight in the direction"), "{words}");
    let letters = words.replace("&#8722;", "-").replace("&#8594;", ">").chars().count() as i64;
    assert!(1_500 + letters * 1_500 * LETTER / 100 <= 160_000 - 1_500, "{letters} letters");
}

/// The grey, of 255, that a class is printed in without colour.
fn grey(picture: &str, class: &str) -> u32 {
    let (_, rest) = picture.split_once(&format!(".{class}{{fill:#")).expect("the class has a colour");
    let colour = u32::from_str_radix(&rest[..6], 16).expect("a colour has six digits");
    let [_, red, green, blue] = colour.to_be_bytes().map(u32::from);
    (299 * red + 587 * green + 114 * blue) / 1_000
}

/// Printed without colour too, the bars of passing differ from all others, from each other and from their ground, and
/// those of lacking sight are the darker ones.
#[test]
fn greys() {
    let road = read(&EXAMPLE).expect("the road is accepted");
    let picture = Drawn::of(&road).picture_with_passing(&road, 120);
    let [lacking, not_judged] = ["P", "np"].map(|class| grey(&picture, class));
    assert!(lacking < not_judged);
    for (class, own) in [("P", lacking), ("np", not_judged)] {
        for other in CLASSES.into_iter().filter(|&other| other != class) {
            assert!(own.abs_diff(grey(&picture, other)) >= 12, "{class} and {other}");
        }
    }
}

/// A picture to the byte: the rules' example with a passing distance of 100 m.
#[test]
fn a_picture_that_was_looked_at() {
    let road = read(&EXAMPLE).expect("the road is accepted");
    assert!(Drawn::of(&road).picture_with_passing(&road, 100) == include_str!("passing.svg"));
}
