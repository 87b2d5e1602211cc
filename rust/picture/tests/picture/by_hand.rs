//! Pictures of a few profiles, with what is to be seen in them written out.

use std::array;

use picture::{svg, Curve, Direction, Lane, Passing, Profile};
use sight_tests::random::Random;

use crate::elements::{stretches, Element, Elements, Outline};
use crate::rules::{HEIGHT, LEFT, TOP, WIDTH};

pub static NO_ZONES: [Vec<[u32; 2]>; 5] = [const { Vec::new() }; 5];

/// A profile with these heights, curves and zones. If it has 1,281 heights, its stations are drawn a pixel apart.
pub fn profile<'a>(heights: &'a [i32], curves: &'a [Curve], zones: &'a [Vec<[u32; 2]>; 5]) -> Profile<'a> {
    let lane = Lane { direction: Direction::Rising, grade: 0, stopping: 20, decision: 25, zones };
    Profile { speed: 20, purpose: 1, lane, other_lane: None, first_grade: 0, curves, heights, passing: None }
}

/// A filled hump over a crest, an open bowl over a sag, a triangle at a break, and nothing where the grade stays.
#[test]
fn shapes_of_curves() {
    let curves = [(100, 40, -100), (200, 20, 300), (300, 20, 300), (400, 0, 200), (500, 0, 200), (600, 0, 250)];
    let curves = curves.map(|(pvi, length, grade_out)| Curve { pvi, length, grade_out });
    let text = svg(&profile(&[0; 1_281], &curves, &NO_ZONES));
    let outlines = Elements::of(&text).outlines();
    let drawn = [
        ("pvi", "MV", &[(32_000, 13_200), (32_000, 38_000)][..]),
        ("crest", "MQZ", &[(30_000, 13_000), (32_000, 11_000), (34_000, 13_000)]),
        ("pvi", "MV", &[(42_000, 13_200), (42_000, 38_000)]),
        ("sag", "MQZ", &[(41_000, 12_000), (42_000, 14_000), (43_000, 12_000)]),
        ("pvi", "MV", &[(62_000, 13_200), (62_000, 38_000)]),
        ("crest", "MLLZ", &[(61_450, 13_000), (62_000, 12_000), (62_550, 13_000)]),
        ("pvi", "MV", &[(82_000, 13_200), (82_000, 38_000)]),
        ("sag", "MLLZ", &[(81_450, 12_000), (82_000, 13_000), (82_550, 12_000)]),
    ];
    assert_eq!(outlines[3..], drawn.map(|(class, commands, points)| Outline::new(class, commands, points)));
    assert!(text.contains(".crest{fill:#20507f;") && text.contains(".sag{fill:#fff;"));
}

/// A zone reaches half a metre to each side, though not beyond the road, and is 2.5 pixels wide or wider.
#[test]
fn zones_and_what_is_judged() {
    let zones = [vec![], vec![[0, 4], [10, 10], [20, 29], [1_280, 1_280]], vec![], vec![], vec![]];
    let all = Elements::of(&svg(&profile(&[0; 1_281], &[], &zones)));
    let bars = [[22_000, 450], [22_950, 250], [23_950, 1_000], [149_950, 250]];
    let strip = all.only("class", "D").0;
    assert_eq!(all.rectangles(strip), bars.map(|[left, width]| [left, 1_500, width, 1_800]));
    // Without a zone of the letter s all is judged.
    let judged = all.only("id", "judged").0;
    assert!(all.inside(judged).map(|element| element.path().1).eq([[0, 0, LEFT + WIDTH, 90_000, 0]]));
}

/// A number above a curve, or a zone's stations, would touch the one before: it is left out, and the next one is not.
#[test]
fn labels_give_way() {
    let curves = [100, 119, 120, 139, 141].map(|pvi| Curve { pvi, length: 0, grade_out: 0 });
    let zones = [vec![], vec![[0, 0], [60, 67], [64, 64], [100, 200]], vec![], vec![], vec![]];
    let all = Elements::of(&svg(&profile(&[0; 1_281], &curves, &zones)));
    let numbers: Vec<_> = all.with("y", "11500").map(Element::label).collect();
    assert_eq!(numbers, [(32_000, "0"), (34_000, "2"), (36_100, "4")].map(|(x, text)| (x, text.to_string())));
    let stations: Vec<_> = all.with("class", "zone").map(Element::label).collect();
    let shown = [(22_000, "0"), (28_400, "64"), (37_000, "100&#8211;200")];
    assert_eq!(stations, shown.map(|(x, text)| (x, text.to_string())));
}

/// Two stretches of 8,000 m, in which a metre is 16 hundredths of a pixel: a zone with stations in both is in both, and what is seen
/// of it in each has its label in the middle. Station 8,000 is the second stretch's.
#[test]
fn zones_over_the_end_of_a_stretch() {
    let zones = [
        vec![[7_900, 8_099]],
        vec![[7_000, 7_999], [8_001, 8_100]],
        vec![[7_000, 7_998], [8_000, 8_000], [15_999, 16_000]],
        vec![[7_900, 8_000]],
        vec![[8_000, 8_099]],
    ];
    let stretches = stretches(&svg(&profile(&[0; 16_001], &[], &zones)));
    assert!(stretches.iter().map(|(down, _)| *down).eq([0, 83_000]));
    for (class, before, behind) in [
        ("S", &[[148_392, 1_608]][..], &[[22_000, 1_592]][..]),
        ("D", &[[133_992, 16_000]], &[[22_008, 1_600]]),
        ("R", &[[133_992, 15_984]], &[[22_000, 250], [149_976, 250]]),
        ("ns", &[[148_392, 1_608]], &[[22_000, 250]]),
        ("nd", &[], &[[22_000, 1_592]]),
    ] {
        for ((_, all), expected) in stretches.iter().zip([before, behind]) {
            let bars = all.rectangles(all.only("class", class).0);
            assert!(bars.iter().map(|&[left, _, width, _]| [left, width]).eq(expected.iter().copied()), "{class}");
        }
    }
    let labels = stretches.iter().map(|(_, all)| all.with("class", "zone").next().map(Element::label));
    assert!(labels.eq([149_200, 22_784].map(|x| Some((x, "7900&#8211;8099".to_string())))));
}

/// A curve that ends or begins where a stretch does is in that one alone, a break there in the second. One across the end has a
/// part of its shape in each, and its line and its number by its PVI.
#[test]
fn curves_over_the_end_of_a_stretch() {
    let drawn = |curves: &[(u32, u32, i32)]| {
        let curve = |&(pvi, length, grade_out): &(u32, u32, i32)| Curve { pvi, length, grade_out };
        let curves: Vec<Curve> = curves.iter().map(curve).collect();
        let stretches = stretches(&svg(&profile(&[0; 16_001], &curves, &NO_ZONES)));
        let of = |(_, all): (i64, Elements)| {
            let numbers: Vec<_> = all.with("y", "11500").map(Element::label).collect();
            (all.outlines().split_off(3), numbers)
        };
        stretches.into_iter().map(of).collect::<Vec<_>>()
    };
    let number = |x: i64, text: &str| (x, text.to_string());
    let [before, behind] = &drawn(&[(7_900, 200, -100), (8_000, 0, -50), (8_100, 200, -100)])[..] else {
        panic!("two stretches")
    };
    let classes = |outlines: &[Outline]| outlines.iter().map(|outline| outline.class.clone()).collect::<Vec<_>>();
    assert_eq!((classes(&before.0), &before.1), (words("pvi crest"), &vec![number(148_400, "0")]));
    assert_eq!((classes(&behind.0), &behind.1), (words("pvi sag pvi crest"), &vec![number(22_000, "1")]));

    let [before, behind] = &drawn(&[(8_010, 40, -100)])[..] else { panic!("two stretches") };
    // A quarter of the hump, and the rest of it: where it is cut it is three quarters as high as in its middle, 750 of 1,000.
    let part = |points: [(i64, i64); 5]| Outline::new("crest", "MLQLZ", &points);
    let first = [(149_840, 13_000), (149_840, 13_000), (149_920, 12_500), (150_000, 12_250), (150_000, 13_000)];
    assert_eq!(*before, (vec![part(first)], vec![]));
    let line = Outline::new("pvi", "MV", &[(22_160, 13_200), (22_160, 38_000)]);
    let rest = [(22_000, 13_000), (22_000, 12_250), (22_240, 11_500), (22_480, 13_000), (22_480, 13_000)];
    assert_eq!(*behind, (vec![line, part(rest)], vec![number(22_160, "0")]));
}

fn words(text: &str) -> Vec<String> {
    text.split(' ').map(str::to_string).collect()
}

/// In a wide font, whose digits are 0.64 of its size wide, the numbers of a long road do not touch: not those of its zones, of which
/// there is one every ten metres, and not those below the plot.
#[test]
fn numbers_of_a_long_road() {
    for length in [8_001, 8_300, 15_000, 15_251, 99_900, 100_000] {
        let every_ten: Vec<[u32; 2]> = (0..=length - 4).step_by(10).map(|station| [station, station + 4]).collect();
        let zones = [every_ten, vec![], vec![], vec![], vec![]];
        let mut labels = 0;
        for (_, all) in stretches(&svg(&profile(&vec![0; length as usize + 1], &[], &zones))) {
            let of_zones: Vec<&Element> = all.with("class", "zone").collect();
            let below: Vec<&Element> = all.with("y", "64000").filter(|text| text.get("class") == "middle").collect();
            for (size, numbers) in [(1_150, of_zones), (1_300, below)] {
                let width = |text: &str| text.replace("&#8211;", "-").len() as i64 * size * 64 / 100;
                let numbers: Vec<(i64, String)> = numbers.into_iter().map(Element::label).collect();
                for pair in numbers.windows(2) {
                    let [(x, one), (next, other)] = pair else { panic!("two numbers") };
                    assert!(next - x >= (width(one) + width(other)) / 2, "{one} and {other}");
                }
                labels += numbers.len();
            }
        }
        assert!(labels > 40, "{labels} labels");
    }
}

/// Level roads: so many metres, at a height in h-units.
#[test]
fn numbers_of_the_axes() {
    let heights = |length: usize, height: i32| {
        let all = Elements::of(&svg(&profile(&vec![height; length + 1], &[], &NO_ZONES)));
        all.with("class", "height").map(|element| element.text.clone()).collect::<Vec<_>>()
    };
    let signed = |numbers: &[&str]| numbers.iter().map(|number| number.replace('-', "&#8722;")).collect::<Vec<_>>();
    let below_zero = ["-0.0003", "-0.0002", "-0.0001", "0.0000", "0.0001", "0.0002", "0.0003", "0.0004"];
    assert_eq!(heights(1, 0), signed(&below_zero));
    let around_ten = ["-10.003", "-10.002", "-10.001", "-10.000", "-9.999", "-9.998", "-9.997"];
    assert_eq!(heights(10, -100_000), signed(&around_ten));
    assert_eq!(heights(100, 123_400), ["12.31", "12.32", "12.33", "12.34", "12.35", "12.36", "12.37"]);
    assert_eq!(heights(1_280, 0), signed(&["-0.4", "-0.3", "-0.2", "-0.1", "0.0", "0.1", "0.2", "0.3", "0.4"]));
    assert_eq!(heights(8_000, 90_000_000), ["8997", "8998", "8999", "9000", "9001", "9002", "9003"]);

    let stations = |length: usize| {
        let all = Elements::of(&svg(&profile(&vec![0; length + 1], &[], &NO_ZONES)));
        let numbers = all.with("y", "64000").filter(|element| element.get("class") == "middle");
        numbers.map(|element| element.text.clone()).collect::<Vec<_>>()
    };
    assert_eq!(stations(1), ["0", "1"]);
    assert_eq!(stations(16), (0..=16).map(|station| station.to_string()).collect::<Vec<_>>());
    assert_eq!(stations(17), ["0", "2", "4", "6", "8", "10", "12", "14", "16", "17"]);
    assert_eq!(stations(1_651), ["0", "200", "400", "600", "800", "1000", "1200", "1400", "1600"]);
    assert_eq!(stations(1_652), ["0", "200", "400", "600", "800", "1000", "1200", "1400", "1600", "1652"]);
}

/// The grade below the title is in percent, with two decimals.
#[test]
fn grades() {
    for (grade, percent) in [
        (0, "0.00"),
        (-1, "&#8722;0.01"),
        (-10, "&#8722;0.10"),
        (-600, "&#8722;6.00"),
        (-1_500, "&#8722;15.00"),
        (5, "0.05"),
        (1_234, "12.34"),
        (i32::MIN, "&#8722;21474836.48"),
        (i32::MAX, "21474836.47"),
    ] {
        let level = profile(&[0; 2], &[], &NO_ZONES);
        let picture = svg(&Profile { lane: Lane { grade, ..level.lane }, ..level });
        assert!(
            picture.contains(&format!(">20 km/h, marked with grade {percent} %: stopping sight 20 m, decision")),
            "{grade}"
        );
    }
}

/// The largest exaggeration at which 1,280 m by so many h-units find room: 400 pixels are 400 m at 1 : 1.
#[test]
fn exaggerations() {
    let mut heights = [0; 1_281];
    for (range, exaggeration) in [
        (8_000, 500),
        (8_001, 200),
        (20_000, 200),
        (20_001, 100),
        (80_001, 20),
        (800_000, 5),
        (2_000_000, 2),
        (2_000_001, 1),
        (i32::MAX, 1),
    ] {
        heights[700] = range;
        let picture = svg(&profile(&heights, &[], &NO_ZONES));
        assert!(picture.contains(&format!(">{exaggeration} : 1<")), "{range}");
    }
}

/// Where a profile finds no room at any exaggeration, its lowest height is at the lower edge, and what is too high at the
/// upper one.
#[test]
fn a_profile_without_room() {
    let all = Elements::of(&svg(&profile(&[-1_000, i32::MAX, 2_750], &[], &NO_ZONES)));
    assert_eq!(all.only("id", "profile").1.points(), [(22_000, 62_000), (86_000, 14_000), (150_000, 38_000)]);
}

/// A road of one station has no length: it is at the left edge, and at the lower one.
#[test]
fn a_road_of_one_station() {
    let all = Elements::of(&svg(&profile(&[7], &[], &NO_ZONES)));
    assert_eq!(all.only("id", "profile").1.points(), [(22_000, 62_000)]);
}

/// Whatever the numbers, there is a picture, and what it shows is on the sheet.
#[test]
fn absurd_numbers() {
    let mut random = Random::new(76);
    let mut lists = vec![vec![], vec![0], vec![i32::MIN], vec![i32::MAX; 2], vec![i32::MIN, i32::MAX]];
    lists.extend((0..300).map(|places| random.list(places, |bits| bits as i32)));
    lists.extend([8_001, 8_002, 20_000, 100_001, 120_000].map(|places| random.list(places, |bits| bits as i32)));
    for heights in lists {
        let number = |random: &mut Random| random.one_of(&[0, 1, 2, 100, u32::MAX - 1, u32::MAX]);
        let curves: Vec<Curve> = (0..random.within(0..=40))
            .map(|_| Curve {
                pvi: number(&mut random),
                length: number(&mut random),
                grade_out: random.one_of(&[i32::MIN, -1, 0, i32::MAX]),
            })
            .collect();
        let mut any_zones = |_| {
            let places = random.within(0..=5) as usize;
            random.list(places, |bits| [bits as u32, (bits >> 32) as u32 >> (bits >> 59)])
        };
        let (zones, passing_zones) = (array::from_fn(&mut any_zones), array::from_fn(&mut any_zones));
        let lane = |random: &mut Random, direction| Lane {
            direction,
            grade: random.one_of(&[i32::MIN, -1, i32::MAX]),
            stopping: 0,
            decision: u32::MAX,
            zones: &zones,
        };
        let directions = [Direction::Rising, Direction::Falling];
        let text = svg(&Profile {
            speed: u32::MAX,
            purpose: u32::MAX,
            lane: lane(&mut random, directions[heights.len() % 2]),
            other_lane: random.once_in(2).then(|| lane(&mut random, directions[heights.len() / 2 % 2])),
            first_grade: i32::MIN,
            passing: random.once_in(2).then_some(Passing { distance: u32::MAX, zones: &passing_zones }),
            ..profile(&heights, &curves, &zones)
        });
        stretches(&text).iter().for_each(|(_, all)| on_the_sheet(all));
    }
}

pub fn on_the_sheet(all: &Elements) {
    let (across, down) = (LEFT..=LEFT + WIDTH, TOP..=TOP + HEIGHT);
    for (x, y) in all.only("class", "earth").1.points() {
        assert!(across.contains(&x) && down.contains(&y), "{x}, {y}");
    }
    for (place, _) in all.0.iter().enumerate().filter(|(_, element)| element.name == "g") {
        for [x, _, width, _] in all.rectangles(place) {
            assert!(across.contains(&x) && (250..=WIDTH).contains(&width), "{x}, {width}");
            assert!(x + width <= LEFT + WIDTH + 250, "{x}, {width}");
        }
    }
    for Outline { points, .. } in &all.outlines()[3..] {
        assert!(points.iter().all(|(x, y)| (0..=160_000).contains(x) && (0..=all.height()).contains(y)), "{points:?}");
    }
    // At most 16 steps of stations, of which a road's end is one, and 10 of heights.
    assert!(all.with("class", "grid").count() <= 17 + 11);
}
