//! docs/RULES.md, "The lister": the program, from standard input to standard output.

use sight_tests::lister;
use sight_tests::random::Random;
use sight_tests::reference::file::{bytes, read_short};
use sight_tests::reference::listing::listing;
use sight_tests::reference::road::{Curve, Road};
use sight_tests::roads::{self, in_version};
use sight_tests::roads::{EXAMPLE, EXAMPLE_LISTING, EXAMPLE_VERSION_2, LONG_EXAMPLE, REFUSALS, SHARP_BREAK, VERSIONS};
use sight_tests::tally::Tally;

/// Compares what the program prints with the second calculation. Answers the text.
fn compare(file: &[u8]) -> String {
    let text = lister::output(file);
    assert_eq!(text, listing(file), "{file:02X?}");
    text
}

/// The rules' example, byte by byte. It ships as a road file.
#[test]
fn example_of_the_rules() {
    assert_eq!(*include_bytes!("../../roads/example.vcp"), EXAMPLE);
    assert_eq!(compare(&EXAMPLE), EXAMPLE_LISTING);
    assert_eq!(compare(&EXAMPLE_VERSION_2), EXAMPLE_LISTING.replace("VCP 1 ", "VCP 2 "));
    assert_eq!(compare(&SHARP_BREAK), "refused 25\n", "document 01's example");
}

/// The same road in either version has the same listing but for the version.
#[test]
fn a_road_in_both_versions() {
    let mut random = Random::new(46);
    for _ in 0..60 {
        let mut road = roads::any_road(&mut random);
        road.speed = random.within(20..=40) as u8;
        let [one, other] = VERSIONS.map(|version| compare(&bytes(&in_version(version, &road))));
        assert!(one.starts_with("VCP 1 "), "{one}");
        assert_eq!(one.replacen("VCP 1 ", "VCP 2 ", 1), other, "{road:?}");
    }
}

/// A road over 8,000 m is refused 8, in the place where 8 is tested: a fault that is tested before decides, and one that is tested
/// behind it does not.
#[test]
fn roads_that_are_too_long() {
    assert_eq!(compare(&LONG_EXAMPLE), "refused 8\n");
    for roads::LongFile { file, short, .. } in roads::long_files(&mut Random::new(47)) {
        assert_eq!(compare(&file), format!("refused {short}\n"), "{file:02X?}");
    }
}

/// The distances are those on the least of the road's grades, wherever it stands, or on the level if none is negative.
#[test]
fn distances_on_the_least_grade() {
    for (first_grade, grade_out, distances) in [
        (0, 0, "160 170"),
        (300, 100, "160 170"),
        (-600, 100, "175 190"),
        (100, -600, "175 190"),
        (-600, -300, "175 190"),
    ] {
        let curves = vec![Curve { pvi: 99, length: 2, grade_out }];
        let road = Road { version: 1, speed: 90, purpose: 1, length: 100, start_height: 0, first_grade, curves };
        assert_eq!(compare(&bytes(&road)), format!("VCP 1 90 {distances}\ns 0 100\nd 0 100\n"));
    }
}

#[test]
fn random_runs_of_short_crests() {
    let mut random = Random::new(41);
    let mut zones = 0;
    for _ in 0..500 {
        let room = random.within(2..=100);
        let mut road = roads::run_of_crests(&mut random, room);
        road.length += random.within(0..=100);
        road.speed = random.one_of(&[20, 25, 30, 35, 40]);
        zones += compare(&bytes(&road)).lines().count() - 1;
    }
    assert!(zones > 1_000, "{zones} zones");
}

#[test]
fn shortest_road() {
    for version in VERSIONS {
        let road =
            Road { version, speed: 130, purpose: 5, length: 1, start_height: -1, first_grade: -1, curves: vec![] };
        assert_eq!(compare(&bytes(&road)), format!("VCP {version} 130 285 525\ns 0 1\nd 0 1\n"));
    }
}

#[test]
fn longest_road() {
    let mut random = Random::new(42);
    let mut road = roads::longest(&mut random);
    road.speed = 30;
    for version in VERSIONS {
        assert!(compare(&bytes(&in_version(version, &road))).lines().count() > 1);
    }
}

/// The longest file of each version is listed. The program reads one byte more than any has, so a longer file is refused by its
/// length.
#[test]
fn longest_file() {
    let mut road = roads::full(&mut Random::new(44));
    road.speed = 30;
    for (version, longest) in VERSIONS.into_iter().zip([208, 274]) {
        let file = bytes(&in_version(version, &road));
        assert_eq!(file.len(), longest);
        assert!(compare(&file).starts_with(&format!("VCP {version} 30 40 ")));
        for more in [1, 2, 66, 67, 68, 100_000] {
            assert_eq!(compare(&[file.clone(), vec![0; more]].concat()), "refused 5\n", "{more} bytes more");
        }
    }
}

/// A refused file has one line, whatever it holds; so has one that is longer than any road's.
#[test]
fn refused_files() {
    assert_eq!(compare(&[]), "refused 1\n");
    let mut random = Random::new(43);
    let mut tally = Tally::default();
    for round in 0..1_000 {
        let fault = REFUSALS[round % REFUSALS.len()];
        let mut file = roads::faulty_file(&mut random, &[fault]);
        let mut refused = Err(fault);
        if random.once_in(7) {
            file.extend((0..random.within(1..=400)).map(|_| random.bits() as u8));
            refused = read_short(&file).map(drop);
        }
        let Err(refusal) = refused else { continue };
        assert_eq!(compare(&file), format!("refused {refusal}\n"));
        tally.count(Err(refusal));
    }
    for refusal in REFUSALS {
        assert!(tally.refused(refusal) > 20, "{} refused {refusal}", tally.refused(refusal));
    }
}
