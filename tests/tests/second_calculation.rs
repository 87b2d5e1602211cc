//! The second calculation by itself, where no function of the proved libraries answers the same question: roads handed
//! over as values, and exact heights.

use sight_tests::random::Random;
use sight_tests::reference::file::{bytes, read, write};
use sight_tests::reference::fraction::Fraction;
use sight_tests::reference::road::{exact_heights, heights, verdict, verdict_up_to, Curve, Road};
use sight_tests::reference::road::{GREATEST_LONG_ROAD, GREATEST_SHORT_ROAD};
use sight_tests::roads::{self, in_version, EXAMPLE, EXAMPLE_VERSION_2, LONG_EXAMPLE};

fn curve(pvi: u32, length: u16, grade_out: i16) -> Curve {
    Curve { pvi, length, grade_out }
}

/// The example's road, read by hand, in either version.
#[test]
fn road_of_the_example() {
    let road = Road {
        version: 1,
        speed: 40,
        purpose: 1,
        length: 300,
        start_height: 0,
        first_grade: 600,
        curves: vec![curve(100, 10, -600), curve(130, 10, 600), curve(160, 10, -600), curve(200, 0, -550)],
    };
    for (version, file) in [(1, &EXAMPLE[..]), (2, &EXAMPLE_VERSION_2)] {
        let road = in_version(version, &road);
        assert_eq!(read(file), Ok(road.clone()));
        assert_eq!(bytes(&road), file);
    }
    let mut filled = [0; 301];
    assert_eq!(heights(&road, &mut filled), Ok(301));
    for (station, height) in [
        (0, 0),
        (1, 600),
        (95, 57_000),
        (100, 58_500),
        (105, 57_000),
        (130, 43_500),
        (160, 58_500),
        (165, 57_000),
        (200, 36_000),
        (201, 35_450),
        (300, -19_000),
    ] {
        assert_eq!(filled[station], height, "station {station}");
    }
}

/// The road of the example of 100 km, read by hand: N is 0x000186A0, the start height 0xFFFFFC18, which is 1,000 below 2^32, and the
/// PVIs are 0x00011170 and 0x0001863C.
#[test]
fn road_of_the_example_of_100_km() {
    let road = Road {
        version: 2,
        speed: 40,
        purpose: 1,
        length: 100_000,
        start_height: -1_000,
        first_grade: 10,
        curves: vec![curve(70_000, 200, 600), curve(99_900, 18, -600)],
    };
    assert_eq!(read(&LONG_EXAMPLE), Ok(road.clone()));
    assert_eq!(bytes(&road), LONG_EXAMPLE);
}

/// What is read from a written road is that road. A version that is neither 1 nor 2 gets 3 before all else, and more than 32 curves
/// get 4 before all but that.
#[test]
fn roads_handed_over_as_values() {
    let mut random = Random::new(23);
    for round in 0..2_000 {
        let road = if round % 4 == 0 { roads::any_long_road(&mut random) } else { roads::any_road(&mut random) };
        let mut buffer = [0xA5; 300];
        let length = if road.version == 1 { 16 + 6 * road.curves.len() } else { 18 + 8 * road.curves.len() };
        assert_eq!(write(&road, &mut buffer[..length - 1]), Err(14));
        assert_eq!(buffer, [0xA5; 300]);
        assert_eq!(write(&road, &mut buffer), Ok(length as u32));
        assert!(buffer[length..].iter().all(|&byte| byte == 0xA5));
        assert_eq!(read(&buffer[..length]), Ok(road));
    }
    let refused = |road: &Road| [verdict(road).err(), write(road, &mut [0; 16]).err(), heights(road, &mut []).err()];
    let mut road = roads::full(&mut random);
    road.speed = 0;
    assert_eq!(refused(&road), [Some(6); 3]);
    road.curves.push(road.curves[31]);
    assert_eq!(refused(&road), [Some(4); 3]);
    for version in [0, 3, 256, 257, 258, 512, 65_535] {
        assert_eq!(refused(&in_version(version, &road)), [Some(3); 3], "version {version}");
    }
}

/// The length of a road by its version and by what an operation takes: refusal 8 stands between 7 and 9 for either limit.
#[test]
fn lengths_of_roads() {
    let level = Road { version: 1, speed: 40, purpose: 1, length: 0, start_height: 0, first_grade: 0, curves: vec![] };
    let [short, long] = [GREATEST_SHORT_ROAD, GREATEST_LONG_ROAD];
    for (length, version_1, version_2, short_of_2) in [
        (0, false, false, false),
        (1, true, true, true),
        (8_000, true, true, true),
        (8_001, false, true, false),
        (65_836, false, true, false),
        (100_000, false, true, false),
        (100_001, false, false, false),
        (u32::MAX, false, false, false),
    ] {
        for (version, most, taken) in
            [(1, long, version_1), (1, short, version_1), (2, long, version_2), (2, short, short_of_2)]
        {
            let road = Road { version, length, ..level.clone() };
            let refused = |road: Road| verdict_up_to(most, &road).err();
            assert_eq!(refused(road.clone()), (!taken).then_some(8), "{length} m, version {version}, at most {most}");
            assert_eq!(refused(Road { purpose: 0, ..road.clone() }), Some(7));
            let high = Road { start_height: i32::MAX, ..road };
            assert_eq!(refused(high), Some(if taken { 9 } else { 8 }), "{length} m, version {version}, at most {most}");
        }
    }
}

/// At a curve's end the exact height is whole, a curve of length 0 changes no height, and stored heights are at or next
/// below the exact ones.
#[test]
fn exact_heights_and_stored_heights() {
    let mut random = Random::new(24);
    let (mut fractions, mut negative_fractions) = (0, 0);
    for _ in 0..1_000 {
        let road = roads::run_of_crests(&mut random, 100);
        let mut stored = vec![0; road.length as usize + 1];
        assert_eq!(heights(&road, &mut stored), Ok(road.length + 1));
        for (exact, &stored) in exact_heights(&road).iter().zip(&stored) {
            let below = Fraction::whole(stored.into());
            let above = Fraction::whole(i128::from(stored) + 1);
            assert!(below <= *exact && *exact < above, "{exact:?} is stored as {stored}");
            fractions += usize::from(below < *exact);
            negative_fractions += usize::from(below < *exact && stored < 0);
        }
    }
    assert!(fractions > 10_000 && negative_fractions > 2_000, "{fractions}, {negative_fractions} of them negative");
}
