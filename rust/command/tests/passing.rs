//! `vcp passing`: read back from its lines, and compared with the second calculation.

mod common;

use std::fs;

use common::{expect, expect_error, expect_wrong, folder, root, run_with, share, SHORT_FILE};
use sight_tests::drawn::Drawn;
use sight_tests::pages::{block, text};
use sight_tests::random::Random;
use sight_tests::reference::file::bytes;
use sight_tests::reference::road::Road;
use sight_tests::roads;

/// What is said under a name: a table of sums and one of zones, in columns that line up, as lists of words.
fn lines_of(text: &str) -> Vec<Vec<&str>> {
    text.lines().map(|line| line.split("  ").map(str::trim).filter(|item| !item.is_empty()).collect()).collect()
}

/// The lines that a road's report has, by the second calculation.
fn expected(name: &str, road: &Road, distance: u32) -> Vec<Vec<String>> {
    let [lacking, not_judged] = Drawn::of(road).passing_zones(distance);
    let stations = road.length + 1;
    let count = |zones: &[[u32; 2]]| zones.iter().map(|[first, last]| last - first + 1).sum::<u32>();
    let judged = stations - count(&not_judged);
    let share = share(count(&lacking), judged);
    let [judged, lacks, unjudged] = [judged, count(&lacking), count(&not_judged)].map(|many| many.to_string());
    let words = |words: &[&str]| words.iter().map(|word| word.to_string()).collect::<Vec<_>>();
    let title = format!("{name}: passing sight over {distance} m, from station 0 to {} (rising)", road.length);
    let mut lines = vec![
        vec![title],
        vec![],
        words(&[&format!("of {stations} stations"), "needed", "judged", "lacking", "share", "not judged"]),
        words(&["passing sight", &format!("{distance} m"), &judged, &lacks, &share, &unjudged]),
        vec![],
        words(&["zone", "from", "to", "length"]),
    ];
    for (meaning, zones) in [("passing sight lacking", lacking), ("passing not judged", not_judged)] {
        if zones.is_empty() {
            lines.push(words(&[meaning, "nowhere"]));
        }
        for [first, last] in zones {
            let length = format!("{} m", last - first + 1);
            lines.push(words(&[meaning, &first.to_string(), &last.to_string(), &length]));
        }
    }
    lines
}

/// Runs of short crests and any roads, for distances that lack here and there, to the road's end and beyond it.
#[test]
fn random_roads() {
    let folder = folder("passing_random");
    let mut random = Random::new(103);
    let (mut clear, mut many, mut none_judged) = (0, 0, 0);
    for round in 0..300 {
        let room = random.within(50..=300);
        let crests = roads::run_of_crests(&mut random, room);
        let road = if round % 3 == 0 { roads::any_road(&mut random) } else { roads::steeper(crests) };
        let distance = match round % 10 {
            0 => road.length,
            1 => (road.length + 1).min(8_000),
            _ => random.within(15..=45),
        };
        let ended = run_with(&folder, &["passing", "-", &distance.to_string()], &bytes(&road)).0;
        assert_eq!((ended.errors.as_str(), ended.status), ("", 0), "{road:?}");
        let expected = expected("-", &road, distance);
        assert_eq!(lines_of(&ended.output), expected, "{distance} m, {road:?}");
        clear += usize::from(expected[6] == ["passing sight lacking", "nowhere"]);
        many += usize::from(expected.len() > 8);
        none_judged += usize::from(expected[3][2] == "0");
    }
    assert!(
        clear > 20 && many > 20 && none_judged > 20,
        "{clear} clear, {many} with more zones, {none_judged} not judged"
    );
}

/// Runs of short crests far out on roads over 8,000 m.
#[test]
fn long_roads() {
    let folder = folder("passing_long");
    let mut random = Random::new(122);
    let mut lacking = 0;
    for _ in 0..12 {
        // The second calculation marks the road for stopping too, and is slow at a high speed.
        let road = Road { speed: 20, ..roads::steeper(roads::far_run_of_crests(&mut random, 300)) };
        let distance = random.within(15..=45);
        let ended = run_with(&folder, &["passing", "-", &distance.to_string()], &bytes(&road)).0;
        assert_eq!((ended.errors.as_str(), ended.status), ("", 0), "{road:?}");
        let expected = expected("-", &road, distance);
        assert_eq!(lines_of(&ended.output), expected, "{distance} m, {road:?}");
        lacking += usize::from(expected[6] != ["passing sight lacking", "nowhere"]);
    }
    assert!(lacking > 5, "{lacking} roads lack passing sight");
}

/// The calls that the README shows, one behind the other.
#[test]
fn calls_of_the_readme() {
    let readme = text("README.md");
    let first = "$ vcp passing-distance --t1 4.3 --a 2.37 --v 84.5 --m 15 --t2 10.7 --d3 75";
    let shown = block(&readme, first);
    let [distance, call, report @ ..] = &shown[..] else { panic!("{shown:?}") };
    expect(&root(), &first.split(' ').skip(2).collect::<Vec<_>>(), &format!("{distance}\n"));
    assert_eq!(*call, format!("$ vcp passing roads/three-crests.vcp {distance}"));
    assert_eq!(report.len(), 8);
    expect(&root(), &["passing", "roads/three-crests.vcp", distance], &format!("{}\n", report.join("\n")));
}

/// The road's refusals come before the distance's.
#[test]
fn refused_roads_and_distances() {
    let folder = folder("passing_refused");
    fs::copy(root().join("roads/three-crests.vcp"), folder.join("a.vcp")).unwrap();
    fs::write(folder.join("b.vcp"), b"VCP").unwrap();
    for distance in ["0", "8001", "4294967616"] {
        let line = "a.vcp: refused 21: the farthest or the passing distance is not 1 to 8,000 m\n";
        expect_error(&folder, &["passing", "a.vcp", distance], 1, line);
        let line = format!("b.vcp: refused 1: {SHORT_FILE}\n");
        expect_error(&folder, &["passing", "b.vcp", distance], 1, &line);
    }
    expect_wrong(&folder, &["passing", "a.vcp", "320.5"], "DISTANCE: \"320.5\" is not whole");
    expect_wrong(&folder, &["passing", "a.vcp", "--", "-320"], "DISTANCE: \"-320\" is negative");
    expect_wrong(&folder, &["passing", "a.vcp", "320", "-o", "x"], "there is no option -o");
}
