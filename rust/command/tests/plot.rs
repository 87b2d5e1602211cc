//! `vcp plot`: the picture of the road's own numbers, of either lane and of both.

mod common;

use std::fs;

use common::{expect, expect_error, expect_wrong, folder, names, root, run_with, SHORT_FILE};
use sight_tests::drawn::Drawn;
use sight_tests::random::Random;
use sight_tests::reference::file::bytes;
use sight_tests::reference::road::Road;
use sight_tests::roads;

#[test]
fn random_roads() {
    let folder = folder("plot_random");
    let mut random = Random::new(89);
    for round in 0..200 {
        let room = random.within(2..=150);
        let mut road =
            if round % 2 == 0 { roads::run_of_crests(&mut random, room) } else { roads::any_road(&mut random) };
        road.speed = random.one_of(&[20, 30, 130]);
        let ended = run_with(&folder, &["plot", "-"], &bytes(&road)).0;
        assert_eq!((ended.errors.as_str(), ended.status), ("", 0), "{road:?}");
        assert!(ended.output == Drawn::of(&road).picture(&road), "{road:?}");
    }
}

/// The lane coming back alone, and both lanes, with rows for passing and without.
#[test]
fn other_lanes() {
    let folder = folder("plot_lanes");
    let mut random = Random::new(195);
    for round in 0..120 {
        let room = random.within(2..=150);
        let mut road = match round % 20 {
            0 => roads::any_long_road(&mut random),
            1..=12 => roads::run_of_crests(&mut random, room),
            _ => roads::any_road(&mut random),
        };
        road.speed = random.one_of(&[20, 25, 30]);
        let (there, back) = (Drawn::of(&road), Drawn::back(&road));
        let (options, picture) = match round % 3 {
            0 => (&["--back"][..], back.picture(&road)),
            1 => (&["--both-lanes"][..], there.picture_with(&back, &road, None)),
            _ => (&["--passing", "40", "--both-lanes"][..], there.picture_with(&back, &road, Some(40))),
        };
        let ended = run_with(&folder, &[&["plot", "-"], options].concat(), &bytes(&road)).0;
        assert_eq!((ended.errors.as_str(), ended.status), ("", 0), "{road:?}");
        assert!(ended.output == picture, "{options:?}, {road:?}");
    }
}

/// Lanes that do not go together, and passing on the lane coming back: said before the file is read.
#[test]
fn wrong_lanes() {
    let folder = folder("plot_wrong_lanes");
    for options in [["--back", "--both-lanes"], ["--both-lanes", "--back"]] {
        expect_wrong(&folder, &[&["plot", "none.vcp"], &options[..]].concat(), "--back does not go with --both-lanes");
    }
    let reason = "--passing does not go with --back: it is for rising stations";
    expect_wrong(&folder, &["plot", "none.vcp", "--back", "--passing", "585"], reason);
    expect_wrong(&folder, &["plot", "none.vcp", "--back", "--back"], "--back stands twice");
    expect_wrong(&folder, &["plot", "none.vcp", "--both-lanes=2"], "--both-lanes takes no value");
    fs::write(folder.join("a.vcp"), b"VCP").unwrap();
    let line = format!("a.vcp: refused 1: {SHORT_FILE}\n");
    for lanes in ["--back", "--both-lanes"] {
        expect_error(&folder, &["plot", "a.vcp", lanes, "-o", "a.svg"], 1, &line);
    }
    fs::copy(root().join("roads/three-crests.vcp"), folder.join("a.vcp")).unwrap();
    let line = "a.vcp: refused 21: the farthest or the passing distance is not 1 to 8,000 m\n";
    expect_error(&folder, &["plot", "a.vcp", "--both-lanes", "--passing", "8001", "-o", "a.svg"], 1, line);
    assert_eq!(names(&folder), ["a.vcp"]);
}

/// Roads over 8,000 m, with rows for passing and without.
#[test]
fn long_roads() {
    let folder = folder("plot_long");
    let mut random = Random::new(121);
    for round in 0..12 {
        let road = Road { speed: random.one_of(&[20, 25, 30]), ..roads::any_long_road(&mut random) };
        let drawn = Drawn::of(&road);
        let (options, picture) = match round % 3 {
            0 => (&["--passing", "40"][..], drawn.picture_with_passing(&road, 40)),
            _ => (&[][..], drawn.picture(&road)),
        };
        let ended = run_with(&folder, &[&["plot", "-"], options].concat(), &bytes(&road)).0;
        assert_eq!((ended.errors.as_str(), ended.status), ("", 0), "{road:?}");
        assert!(ended.output == picture, "{road:?}");
    }
}

/// The same with rows for passing, for short distances, and for one that most of the roads do not have.
#[test]
fn random_roads_with_passing() {
    let folder = folder("plot_passing");
    let mut random = Random::new(102);
    let (mut lacking, mut not_judged) = (0, 0);
    for round in 0..100 {
        let room = random.within(80..=300);
        let crests = roads::steeper(roads::run_of_crests(&mut random, room));
        let road = if round % 2 == 0 { crests } else { roads::any_road(&mut random) };
        let distance = if random.once_in(10) { 8_000 } else { random.within(15..=45) };
        let ended = run_with(&folder, &["plot", "-", "--passing", &distance.to_string()], &bytes(&road)).0;
        assert_eq!((ended.errors.as_str(), ended.status), ("", 0), "{road:?}");
        let drawn = Drawn::of(&road);
        assert!(ended.output == drawn.picture_with_passing(&road, distance), "{distance} m, {road:?}");
        let zones = drawn.passing_zones(distance);
        lacking += zones[0].len();
        not_judged += zones[1].len();
    }
    assert!(lacking > 20 && not_judged > 50, "{lacking} zones lacking, {not_judged} not judged");
}

/// A passing distance that is refused, or is none.
#[test]
fn refused_passing_distances() {
    let folder = folder("plot_passing_refused");
    fs::copy(root().join("roads/three-crests.vcp"), folder.join("a.vcp")).unwrap();
    let line = "a.vcp: refused 21: the farthest or the passing distance is not 1 to 8,000 m\n";
    for distance in ["0", "8001", "4294967297"] {
        expect_error(&folder, &["plot", "a.vcp", "--passing", distance, "-o", "a.svg"], 1, line);
    }
    expect_wrong(&folder, &["plot", "a.vcp", "--passing", "3.2"], "--passing: \"3.2\" is not whole");
    assert_eq!(names(&folder), ["a.vcp"]);
}

/// The README's pictures, to standard output and into a file.
#[test]
fn picture_of_the_readme() {
    let folder = folder("plot_readme");
    fs::copy(root().join("roads/three-crests.vcp"), folder.join("a.vcp")).unwrap();
    let picture = fs::read_to_string(root().join("docs/three-crests.svg")).unwrap();
    expect(&folder, &["plot", "a.vcp"], &picture);
    let both = fs::read_to_string(root().join("docs/both-lanes.svg")).unwrap();
    expect(&folder, &["plot", "a.vcp", "--both-lanes"], &both);
    expect(&folder, &["plot", "a.vcp", "-o", "a.svg"], "");
    assert_eq!(fs::read_to_string(folder.join("a.svg")).unwrap(), picture);
    expect_error(&folder, &["plot", "a.vcp", "-o", "./a.vcp"], 2, "./a.vcp: it would replace what it is made from\n");
    assert_eq!(names(&folder), ["a.svg", "a.vcp"]);
}

/// A refused road leaves the picture that stood there.
#[test]
fn refused_roads() {
    let folder = folder("plot_refused");
    fs::write(folder.join("a.vcp"), b"VCP").unwrap();
    fs::write(folder.join("a.svg"), "before").unwrap();
    let line = format!("a.vcp: refused 1: {SHORT_FILE}\n");
    expect_error(&folder, &["plot", "a.vcp", "-o", "a.svg"], 1, &line);
    expect_error(&folder, &["plot", "a.vcp", "-o", "b.svg"], 1, &line);
    assert_eq!(fs::read_to_string(folder.join("a.svg")).unwrap(), "before");
    assert_eq!(names(&folder), ["a.svg", "a.vcp"]);
}
