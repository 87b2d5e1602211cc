//! Pictures of a road before and after a change of one curve.

use picture::{preview, Curve, Passing, Preview, Profile};
use sight_tests::drawn::{Change, Drawn};
use sight_tests::random::Random;
use sight_tests::reference::file::read;
use sight_tests::reference::road::{self, Road};
use sight_tests::roads;

use crate::by_hand::{on_the_sheet, profile, NO_ZONES};
use crate::elements::{Elements, Outline};
use crate::page::{BOLD_LETTER, LETTER};
use crate::rules::Plot;
use crate::{
    compare_axes, compare_curve_numbers, compare_headings, compare_profile, compare_stretches, compare_strip,
    compare_zones, straight, STRIPS,
};

// ---- the comparison
/// Compares the picture of a change with the second calculation, and answers how many stations differ.
fn compare(change: &Change) -> u32 {
    let drawn = change.drawn();
    let text = change.picture(&drawn);
    let [before, after] = drawn;
    let plots = Plot::all(&[&before.heights, &after.heights]);
    let [old, new] = [&change.before, &change.after].map(|road| road.curves[change.place]);
    let [place, pvi] = [change.place as u32, new.pvi];
    let words = format!(": curve {place}, PVI {pvi} m, length {} m &#8594; {} m", old.length, new.length);
    compare_headings(&change.after, &after, &plots[0], &text, &words);
    let stretches = compare_stretches(&text, plots.len(), 108_000);
    for (place, (plot, all)) in plots.iter().zip(&stretches).enumerate() {
        compare_profile(&after, plot, all);
        compare_zones(&after, plot, 108_000, all);
        compare_axes(plot, 108_000, all);
        compare_pairs(&before, &after, plot, all);
        let curves = plot.curves(&change.after, &after.heights, Some((change.place, &old)));
        // The key of the lines stands above the first stretch, that of the shapes above each.
        let keys = if place == 0 { 5 } else { 3 };
        assert_eq!(all.outlines()[keys..], curves, "{:?}", change.after);
        compare_curve_numbers(&change.after, Some(change.place), plot, all);
        compare_old_road(&before, &after, plot, all);
    }
    let numbers = Elements::of(&text).with("y", "11500").map(|number| number.label().1).collect::<Vec<_>>();
    assert!(numbers.contains(&change.place.to_string()), "{:?}", change.after);
    let all = &stretches[0];
    let differing = before.differing(&after);
    let verb = if differing == 1 { "differs" } else { "differ" };
    let count = format!("{differing} of {} stations {verb}", before.heights.len());
    assert_eq!(all.only("class", "sub letter").1.text, count);
    differing
}

/// Two strips for each letter, before and after, and no other.
fn compare_pairs(before: &Drawn, after: &Drawn, plot: &Plot, all: &Elements) {
    assert_eq!(all.with("class", "lane").count(), 10);
    for (place, [class, letter, meaning]) in STRIPS.into_iter().take(5).enumerate() {
        let (pair, group) = all.only("class", class);
        assert_eq!(group.get("transform"), format!("translate(0 {})", 66_500 + 8_000 * place), "{class}");
        let words: Vec<&str> = all.words(pair).collect();
        assert_eq!(words[..3], [&format!("&#160; {meaning}"), letter, "before"], "{class}");
        assert_eq!(words.iter().filter(|&&word| word == "after").count(), 1, "{class}");
        let [old, new] = [before, after].map(|drawn| &drawn.zones[place][..]);
        let [old_labels, new_labels] = plot.pair_labels([old, new]);
        compare_strip(old, &old_labels, [1_500, 1_200], plot, all, all.group_in(pair, "before"));
        compare_strip(new, &new_labels, [3_500, 6_450], plot, all, pair);
    }
}

/// The profile of the road as it is, over the changed road, from the station before the first height that differs to the one behind
/// the last, as far as the stretch has them.
fn compare_old_road(before: &Drawn, after: &Drawn, plot: &Plot, all: &Elements) {
    let (name, used, changed) =
        (plot.name("old"), format!("#{}", plot.name("old")), format!("url(#{})", plot.name("S")));
    let mut lines = all.with("id", &name);
    let mut uses = (0..).zip(&all.0).filter(|(_, line)| line.name == "use" && line.get("href") == used);
    let differ = |&station: &usize| before.heights[station] != after.heights[station];
    let stations: Vec<usize> = plot.stations().filter(differ).collect();
    if let Some((first, last)) = stations.first().zip(stations.last()) {
        let line = lines.next().expect("a line of the road as it is");
        let seen = (first - 1).max(*plot.stations().start())..=(last + 1).min(*plot.stations().end());
        assert_eq!(line.points(), plot.profile(&before.heights, seen));
        for class in ["old halo", "old line"] {
            let (place, line) = uses.next().expect("the line is drawn, over a pale band");
            assert_eq!(line.get("class"), class);
            assert!(place > all.only("clip-path", &changed).0, "it lies over the changed road");
        }
    }
    assert!(lines.next().is_none() && uses.next().is_none(), "one line where they differ, else none");
}

// ---- changes
#[test]
fn random_runs_of_short_crests() {
    let mut random = Random::new(111);
    let (mut changed, mut unchanged) = (0, 0);
    for round in 0..300 {
        let room = random.within(50..=300);
        let mut road = roads::steeper(roads::run_of_crests(&mut random, room));
        road.length += random.within(0..=100);
        road.speed = random.one_of(&[20, 25, 30, 35]);
        let change = if round % 4 == 0 { Change::any } else { Change::with_room };
        let Some(change) = change(&mut random, &road) else { continue };
        match compare(&change) {
            0 => unchanged += 1,
            _ => changed += 1,
        }
    }
    assert!(changed > 50 && unchanged > 50, "{changed} change marks, {unchanged} do not");
}

#[test]
fn random_roads() {
    let mut random = Random::new(112);
    let mut compared = 0;
    for round in 0..200 {
        let road = match round % 4 {
            0 => roads::any_road(&mut random),
            1 => roads::breaks(&mut random, 100),
            2 => roads::one_curve(&mut random, 500),
            _ => roads::sparse(&mut random, 400),
        };
        if let Some(change) = Change::any(&mut random, &road) {
            compare(&change);
            compared += 1;
        }
    }
    assert!(compared > 150, "{compared} changes");
}

/// A break that becomes a curve, a curve that becomes a break, one on all of the longest road, and one that stays as it is.
#[test]
fn edges() {
    for (grade_out, old, new) in
        [(50, 0, 2_000), (50, 2_000, 0), (-1_500, 2, 2_000), (1_500, 2_000, 2), (0, 0, 2), (700, 40, 40)]
    {
        for length in [2_000, 8_000] {
            let curves = vec![road::Curve { pvi: 1_000, length: old, grade_out }];
            let road = Road { curves, ..straight(length, 0, 0) };
            compare(&Change::of(&road, 0, new).expect("both lengths are accepted"));
        }
        // No preview takes a road of two stretches, and the picture has the change in both.
        let curves = vec![road::Curve { pvi: 7_990, length: old, grade_out }];
        let road = Road { curves, ..straight(15_999, 0, 0) };
        compare(&Change::of(&road, 0, new).expect("both lengths are accepted"));
    }
}

/// Two profiles that have nothing to do with each other, and a place that has no curve: there is a picture all the same.
#[test]
fn absurd_changes() {
    let curve = |length: u32| Curve { pvi: 1, length, grade_out: 5 };
    let (one, two) = ([curve(2)], [curve(0), curve(u32::MAX)]);
    let lists: [&[i32]; 4] = [&[], &[7], &[i32::MIN, i32::MAX], &[0; 1_281]];
    for (old, new) in lists.iter().flat_map(|old| lists.map(|new| (old, new))) {
        for (place, curves) in [(0, [&one[..], &two]), (1, [&one, &two]), (1, [&two, &one]), (usize::MAX, [&[], &[]])] {
            let (before, after) = (profile(old, curves[0], &NO_ZONES), profile(new, curves[1], &NO_ZONES));
            let passing = Some(Passing { distance: 1, zones: &[vec![], vec![[0, 9]]] });
            for before in [before, Profile { passing, ..before }] {
                let text = preview(&Preview { before, after, place, differing: u32::MAX });
                let all = Elements::of(&text);
                on_the_sheet(&all);
                assert_eq!(text.contains(": curve "), curves.iter().all(|own| place < own.len()), "{place}");
            }
        }
    }
}

// ---- words and colours
/// The headings and the keys stay on the sheet, and apart, when their numbers are as long as can be.
#[test]
fn the_longest_headings() {
    let [old, new] = [2_000, 1_998].map(|length| [Curve { pvi: 7_000, length, grade_out: 0 }; 32]);
    let (before, after) = (profile(&[0; 8_001], &old, &NO_ZONES), profile(&[0; 8_001], &new, &NO_ZONES));
    let all = Elements::of(&preview(&Preview { before, after, place: 31, differing: 8_001 }));
    let width = |text: &str, size: i64, letter: i64| {
        let letters = text.replace("&#8594;", ">").chars().count() as i64;
        letters * size * letter / 100
    };
    let title = &all.only("class", "title").1.text;
    assert_eq!(title, "Sight along the road, 8000 m: curve 31, PVI 7000 m, length 2000 m &#8594; 1998 m");
    assert!(1_500 + width(title, 2_600, BOLD_LETTER) <= 160_000 - 1_500);
    let count = &all.only("class", "sub letter").1.text;
    assert_eq!(count, "8001 of 8001 stations differ");
    let mut free = 1_500 + width(count, 1_500, BOLD_LETTER);
    let texts = all.with("y", "9500").filter(|text| text.get("class").is_empty());
    for (text, width) in texts.map(|text| (text, width(text.text.trim_end(), 1_300, LETTER))) {
        // Its line or shape is 40 pixels wide, and 6 stand between.
        assert!(free + 1_000 <= text.number("x") - 600 - 4_000, "{}", text.text);
        free = text.number("x") + width;
    }
    assert!(free <= 160_000 - 1_500);
}

/// The keys show what is drawn: the same classes, the curve as it is within the changed one.
#[test]
fn keys() {
    let road = read(include_bytes!("../../../../roads/three-crests.vcp")).expect("the road is accepted");
    let change = Change::of(&road, 3, 80).expect("it is accepted");
    let all = Elements::of(&change.picture(&change.drawn()));
    let key = [
        Outline::new("crest changed", "MQZ", &[(78_000, 9_600), (80_000, 7_600), (82_000, 9_600)]),
        Outline::new("old", "MQZ", &[(79_000, 9_600), (80_000, 7_600), (81_000, 9_600)]),
    ];
    assert_eq!(all.outlines()[..2], key);
    let lines: Vec<_> =
        all.with("class", "old line").chain(all.with("class", "road")).map(|line| line.name.as_str()).collect();
    assert_eq!(lines, ["path", "use", "path", "use"]);
    let words: Vec<&str> = all.with("y", "9500").map(|text| text.text.trim_end()).collect();
    let said =
        ["the road as it is", "the changed road, its zones in colour", "the changed curve, its old shape dashed"];
    assert_eq!(words[1..], said);
}

/// Of 16 short crests on a road of 8,000 m the seventh zone goes: its stations stand there, whatever gives way, and those of the
/// other zones stand in both rows or in neither.
#[test]
fn labels_of_what_changes() {
    let curves = (0..32).map(|place| road::Curve {
        pvi: 2_000 + 125 * place,
        length: 10,
        grade_out: if place % 2 == 0 { -600 } else { 600 },
    });
    let road = Road { speed: 40, curves: curves.collect(), ..straight(8_000, 0, 600) };
    let change = Change::of(&road, 6, 220).expect("it is accepted");
    compare(&change);
    let all = Elements::of(&change.picture(&change.drawn()));
    let pair = all.only("class", "S").0;
    let labels = |group: usize| -> Vec<String> {
        let stations = all.inside(group).filter(|element| element.get("class") == "zone");
        stations.map(|element| element.label().1).collect()
    };
    let (mut before, after) = (labels(all.group_in(pair, "before")), labels(pair));
    let gone = before.iter().position(|label| label == "2708&#8211;2738").expect("the zone that goes has its stations");
    before.remove(gone);
    assert_eq!(before, after);
}

/// The README's picture to the byte: three crests, the second twice as long as it is.
#[test]
fn a_picture_that_was_looked_at() {
    let road = read(include_bytes!("../../../../roads/three-crests.vcp")).expect("the road is accepted");
    let change = Change::of(&road, 3, 80).expect("it is accepted");
    assert!(change.picture(&change.drawn()) == include_str!("../../../../docs/preview.svg"));
}
