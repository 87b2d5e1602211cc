//! The safe-Rust side of the bench gives the second calculation's answers. The gate does not run the bench.

use sight_tests::quick;
use sight_tests::random::Random;
use sight_tests::reference::crest::{crest_length, Crest};
use sight_tests::reference::distances::required_distance;
use sight_tests::reference::file::bytes;
use sight_tests::reference::marks::{mark_file, mark_road_file};
use sight_tests::reference::road::marking_grade;
use sight_tests::reference::Answer;
use sight_tests::roads;
use sight_tests::tally::{Bits, Tally};

/// The quick markings leave in `places` bytes what the second calculation does. Answers the marks.
fn compare(file: &[u8], places: usize) -> (Answer, Vec<u8>) {
    let mut marks = vec![0xA5; places];
    let answer = mark_road_file(file, &mut marks);
    for marking in [quick::mark_road_file, quick::mark_file, quick::mark_road_file_literally] {
        let mut list = vec![0xA5; places];
        assert_eq!(marking(file, &mut list), answer, "{places} places, {file:02X?}");
        assert_eq!(list, marks, "{places} places, {file:02X?}");
    }
    (answer, marks)
}

/// Runs of short crests and sags, at any speed and for any purpose, and a straight behind them so that they are judged.
#[test]
fn markings() {
    let mut random = Random::new(81);
    let mut bits = Bits::default();
    let mut falling = 0;
    for round in 0..300 {
        let room = random.within(2..=40);
        let mut road = roads::run_of_crests(&mut random, room);
        if round % 5 == 1 {
            road.first_grade = road.first_grade.abs();
            road.curves.iter_mut().for_each(|curve| curve.grade_out = curve.grade_out.abs());
        }
        // Most are slow, so that there can be many.
        if round % 30 != 0 {
            road.speed = random.within(20..=40) as u8;
        }
        let grade = marking_grade(&road);
        falling += u32::from(grade < 0);
        road.length += required_distance(road.speed.into(), road.purpose.into(), grade).expect("all are accepted");
        let (file, stations) = (bytes(&road), road.length as usize + 1);
        assert_eq!(compare(&file, stations - 1).0, Err(14));
        let (answer, marks) = compare(&file, stations + 3);
        assert_eq!(answer, Ok(stations as u32));
        bits.count(&marks[..stations]);
    }
    assert!(bits.0[..5].iter().all(|&many| many > 100), "{:?}", bits.0);
    assert!((200..=240).contains(&falling), "{falling} of 300 roads fall");
}

/// Runs of short crests and sags far out, in every place where such a run may be. The tests of marks compare the library with this
/// side there.
#[test]
fn markings_of_long_roads() {
    let mut random = Random::new(83);
    let mut bits = Bits::default();
    for _ in 0..8 {
        let mut road = roads::steeper(roads::far_run_of_crests(&mut random, 150));
        (road.speed, road.purpose) = (random.within(20..=25) as u8, 1);
        let file = bytes(&road);
        let stations = road.length as usize + 1;
        let [mut marks, mut second] = [(); 2].map(|_| vec![0xA5; stations + 3]);
        for marking in [quick::mark_road_file, quick::mark_road_file_literally] {
            assert_eq!(marking(&file, &mut marks), Err(8), "{road:?}");
        }
        assert_eq!(quick::mark_file(&file, &mut marks[..stations - 1]), Err(14));
        assert_eq!(quick::mark_file(&file, &mut marks), Ok(stations as u32));
        assert_eq!(mark_file(&file, &mut second), Ok(stations as u32));
        assert!(marks == second, "{road:?}");
        bits.count(&marks[8_000..stations]);
    }
    assert!(bits.0[..5].iter().all(|&many| many > 5), "{:?}", bits.0);
}

#[test]
fn required_distances() {
    for speed in [0, 19, 131, 256 + 20, u32::MAX].into_iter().chain(20..=130) {
        for purpose in [0, 1, 2, 3, 4, 5, 6, 256, u32::MAX] {
            for grade in [i32::MIN, -1_501, -1_500, -33, 0, 1, 600, 1_500, 1_501] {
                let answer = quick::required_distance(speed, purpose, grade);
                assert_eq!(answer, required_distance(speed, purpose, grade), "{speed}, {purpose}, {grade}");
            }
        }
    }
}

#[test]
fn crest_lengths() {
    let mut random = Random::new(82);
    let mut tally = Tally::default();
    for _ in 0..2_000 {
        let number = |greatest: u32| match random.within(0..=19) {
            0 => random.one_of(&[0, greatest + 1]),
            _ => random.of_any_size(greatest),
        };
        let [drop, sight, eye, object] = [3_000, 800, 50_000, 50_000].map(number);
        let speed = if random.once_in(20) { random.one_of(&[19, 131]) } else { random.within(20..=130) };
        let crest = Crest { speed, drop, sight, eye, object };
        let answer = quick::crest_length(crest);
        assert_eq!(answer, crest_length(crest), "{crest:?}");
        tally.count(answer);
    }
    assert!(tally.numbers() > 1_000, "{} numbers", tally.numbers());
    for refusal in [6, 15, 16, 17, 18] {
        assert!(tally.refused(refusal) > 50, "{} refused {refusal}", tally.refused(refusal));
    }
}
