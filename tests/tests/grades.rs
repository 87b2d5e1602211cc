//! docs/RULES.md, "Distances a driver needs": the grade that a road is marked with towards rising stations, and the distances that it
//! requires; and how many stations it has for an operation that takes short roads alone.

use exports::Direction::Rising;
use sight_tests::bare;
use sight_tests::heights;
use sight_tests::random::Random;
use sight_tests::reference::distances::required_distance;
use sight_tests::reference::file::{bytes, file_distance, file_grade, short_stations};
use sight_tests::reference::marks::runs;
use sight_tests::reference::road::{Curve, Road};
use sight_tests::roads::{self, EXAMPLE, EXAMPLE_VERSION_2, LONG_EXAMPLE, REFUSALS, VERSIONS};
use sight_tests::tally::Tally;

/// The program's answers for a file are those of the second calculation. Answers the grade.
fn compare(file: &[u8]) -> Result<i32, u32> {
    let answer = exports::file_grade(file, Rising).map_err(|refusal| refusal.number());
    assert_eq!(answer, file_grade(file), "{file:02X?}");
    for purpose in 0..=6 {
        assert_eq!(
            bare(exports::file_distance(file, Rising, purpose)),
            file_distance(file, purpose),
            "{purpose}: {file:02X?}"
        );
    }
    assert_eq!(bare(exports::short_stations(file)), short_stations(file), "{file:02X?}");
    answer
}

/// An accepted road with a first grade and short curves to these grades, the last of them up to the road's end.
fn road(first_grade: i16, grades: &[i16]) -> Road {
    let length = 10 * grades.len().max(1) as u32;
    let curves = (1..).zip(grades).map(|(place, &grade_out)| Curve { pvi: 10 * place - 1, length: 2, grade_out });
    Road { version: 1, speed: 90, purpose: 1, length, start_height: 0, first_grade, curves: curves.collect() }
}

/// The examples need 50 m to stop and 60 m to decide, as their listing says of the first two; the third is too long for one.
#[test]
fn examples() {
    for (file, stations) in [(&EXAMPLE[..], Ok(301)), (&EXAMPLE_VERSION_2, Ok(301)), (&LONG_EXAMPLE, Err(8))] {
        assert_eq!(compare(file), Ok(-600));
        assert_eq!([0, 1].map(|purpose| exports::file_distance(file, Rising, purpose)), [Ok(50), Ok(60)]);
        assert_eq!([6, u32::MAX].map(|purpose| bare(exports::file_distance(file, Rising, purpose))), [Err(7); 2]);
        assert_eq!(bare(exports::short_stations(file)), stations);
    }
}

/// A road over 8,000 m has its grade and its distances, and is refused 8 where short roads alone are taken, in the place where 8 is
/// tested.
#[test]
fn long_roads() {
    for roads::LongFile { file, short, read } in roads::long_files(&mut Random::new(50)) {
        assert_eq!(compare(&file).err(), read, "{file:02X?}");
        assert_eq!(bare(exports::file_distance(&file, Rising, 0)).err(), read, "{file:02X?}");
        assert_eq!(bare(exports::short_stations(&file)), Err(short), "{file:02X?}");
    }
}

/// Up to 8,000 m the stations are counted, in either version.
#[test]
fn stations_at_each_edge() {
    for version in VERSIONS {
        for length in [1, 2, 255, 256, 7_999, 8_000] {
            let file = bytes(&Road { version, length, ..road(0, &[]) });
            assert_eq!(exports::short_stations(&file), Ok(length + 1), "version {version}");
            compare(&file).expect("the road is accepted");
        }
    }
}

/// The least grade counts wherever it stands: as the first grade and as the grade out of each of the curves.
#[test]
fn least_grade_at_every_place() {
    let mut random = Random::new(47);
    for curves in [0, 1, 2, 31, 32] {
        for place in 0..=curves {
            let least = -(random.of_any_size(1_500) as i16);
            let above = random.one_of(&[least + 1, 0, 1_500]);
            let mut grades = vec![above; curves + 1];
            grades[place] = least;
            let road = road(grades[0], &grades[1..]);
            assert_eq!(compare(&bytes(&road)), Ok(least.into()), "{road:?}");
        }
    }
}

/// Where none is negative it is 0, also where all are positive.
#[test]
fn no_road_is_marked_with_an_upgrade() {
    for curves in [0, 1, 2, 31, 32] {
        for grade in [0, 1, 1_500] {
            assert_eq!(compare(&bytes(&road(grade, &vec![grade; curves]))), Ok(0), "{curves} curves, grade {grade}");
        }
        assert_eq!(compare(&bytes(&road(1_500, &vec![1; curves]))), Ok(0), "{curves} curves");
    }
}

/// Every grade that a road may have, alone.
#[test]
fn every_grade() {
    for grade in -1_500..=1_500 {
        let expected = Ok(i32::from(grade).min(0));
        assert_eq!(compare(&bytes(&road(grade, &[]))), expected);
        assert_eq!(compare(&bytes(&road(1_500, &[grade]))), expected);
    }
}

/// Runs of short crests and sags first of all, then roads of every kind.
#[test]
fn random_roads() {
    let mut random = Random::new(48);
    let (mut level, mut first, mut last, mut between) = (0, 0, 0, 0);
    for round in 0..20_000 {
        let room = random.within(2..=100);
        let road = match round % 4 {
            0 => roads::any_road(&mut random),
            1 => roads::far_run_of_crests(&mut random, room),
            _ => roads::run_of_crests(&mut random, room),
        };
        let road = roads::gentler(road, random.one_of(&[1, 1, 10, 1_000]));
        let grade = compare(&bytes(&road)).expect("the road is accepted");
        let grades: Vec<i32> = road.curves.iter().map(|curve| curve.grade_out.into()).collect();
        match grades.iter().position(|&own| own == grade) {
            _ if grade == 0 => level += 1,
            None => first += 1,
            Some(place) if place + 1 == grades.len() => last += 1,
            Some(_) => between += 1,
        }
    }
    assert!([level, first, last, between].iter().all(|&many| many > 1_000), "{level}, {first}, {last}, {between}");
}

/// A file is refused as reading refuses it.
#[test]
fn refused_files() {
    let mut random = Random::new(49);
    let mut tally = Tally::default();
    for _ in 0..20_000 {
        let file = match random.within(0..=3) {
            0 => roads::careless_file(&mut random),
            _ => roads::doubtful_file(&mut random),
        };
        tally.count(compare(&file).map(i32::unsigned_abs));
    }
    assert!(tally.numbers() > 100, "{} accepted", tally.numbers());
    for refusal in REFUSALS {
        assert!(tally.refused(refusal) > 200, "{} refused {refusal}", tally.refused(refusal));
    }
}

/// The distances of a road's listing, and how many of its last stations are not judged for each.
fn distances(road: &Road) -> [[u32; 2]; 2] {
    let file = bytes(road);
    let mut text = vec![0; exports::GREATEST_LISTING];
    let length = exports::list_road_file(&file, &mut text).expect("the text has room") as usize;
    let text = String::from_utf8(text[..length].to_vec()).expect("a listing is text");
    let listed = text.lines().next().and_then(|line| line.strip_prefix("VCP 1 90 ")).expect("its first line");
    let listed: Vec<u32> = listed.split(' ').map(|number| number.parse().expect("a number")).collect();
    let mut marks = vec![0; road.length as usize + 1];
    vcp::mark_road_file(&file, &mut marks).expect("the marks have room");
    let not_judged = [3, 4].map(|bit| match runs(&marks, bit)[..] {
        [[first, last]] => last - first + 1,
        _ => panic!("the last stations are not judged: {road:?}"),
    });
    [[listed[0], listed[1]], not_judged]
}

/// Two roads that differ only in the grade behind a curve: the listing and the marks go by the least grade, wherever it is.
#[test]
fn roads_that_differ_in_their_least_grade() {
    for place in [0, 20, 29] {
        let mut grades = [100; 30];
        let level = road(100, &grades);
        assert_eq!(distances(&level), [[160, 170]; 2], "no grade is negative");
        for (grade, stopping, decision) in [(-300, 165, 180), (-600, 175, 190), (-1_500, 225, 240)] {
            grades[place] = grade;
            let road = road(100, &grades);
            assert_eq!(distances(&road), [[stopping, decision]; 2], "{road:?}");
            let required = |purpose: u32| required_distance(90, purpose, grade.into());
            assert_eq!([0, 1].map(required), [Ok(stopping), Ok(decision)]);
        }
    }
}

/// A grade counts even where no metre of the road has it: behind a break at the road's end, and between two breaks at one
/// station. No height changes with it, and at 90 km/h a road that falls by 0.01 % needs 5 m less to stop than a level one.
#[test]
fn grades_that_no_metre_has() {
    let broken = |pvi: u32, grade_out: i16| Curve { pvi, length: 0, grade_out };
    let with = |curves: &[Curve]| Road { length: 300, curves: curves.to_vec(), ..road(0, &[]) };
    let level = with(&[]);
    assert_eq!(distances(&level), [[160, 170]; 2]);
    for curves in [&[broken(300, -1)][..], &[broken(100, -1), broken(100, 0)]] {
        let road = with(curves);
        assert_eq!(distances(&road), [[155, 170]; 2], "{road:?}");
        assert_eq!(heights::of_road(&road), heights::of_road(&level), "{road:?}");
    }
}

/// A road that falls gently needs less than a level one (see the tests of distances), and its grade is not taken for 0.
#[test]
fn roads_that_fall_gently() {
    for (grade, stopping) in [(1, 160), (0, 160), (-1, 155), (-16, 155), (-17, 160)] {
        let road = Road { length: 300, ..road(grade, &[]) };
        assert_eq!(distances(&road), [[stopping, 170]; 2], "grade {grade}");
    }
}
