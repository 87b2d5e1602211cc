//! Over all inputs, refusals included, both engines of sight give the same, in either direction. The tests of sight compare each with
//! the second calculation; here they are compared with each other, with any faults in what is asked, and on long roads.

use std::time::{Duration, Instant};

use exports::Direction;
use sight_tests::engines::{DIRECTIONS, ENGINES};
use sight_tests::heights;
use sight_tests::lent;
use sight_tests::pages::text;
use sight_tests::random::Random;
use sight_tests::reference::sight::Look;
use sight_tests::reference::Answer;
use sight_tests::roads;
use sight_tests::tally::Tally;

/// The sight from one station, which is that of both.
fn compare_sight(heights: &[i32], direction: Direction, station: u32, look: Look) -> Answer {
    let [quick, slow] = ENGINES.map(|engine| engine.sight(heights, direction, station, look));
    assert_eq!(slow, quick, "{direction:?}, station {station}, {look:?}, {heights:?}");
    quick
}

/// Both fill `places` numbers with the same sights, and the rest stays.
fn compare_profile(
    random: &mut Random,
    heights: &[i32],
    direction: Direction,
    look: Look,
    places: usize,
) -> (Answer, Vec<u16>) {
    let [quick, slow] = ENGINES.map(|engine| move |list: &mut [u16]| engine.profile(heights, direction, look, list));
    let before = random.list(places, |bits| bits as u16);
    lent::compare(&before, slow, quick, format_args!("{direction:?}, {look:?}, {heights:?}"))
}

/// A short list of heights of any kind; now and then it is empty.
fn any_heights(random: &mut Random) -> Vec<i32> {
    let stations = random.within(1..=60);
    match random.within(0..=9) {
        0 => vec![],
        1 | 2 => heights::of_any_value(random, stations as usize),
        3..=5 => heights::uneven(random, stations as usize),
        _ => heights::of_road(&roads::run_of_crests(random, stations.max(2))),
    }
}

#[test]
fn whatever_is_asked() {
    let mut random = Random::new(130);
    let (mut of_station, mut of_profile) = (Tally::default(), Tally::default());
    for _ in 0..20_000 {
        let heights = any_heights(&mut random);
        let stations = heights.len() as u32;
        let look = Look {
            eye: random.in_or_out_of(1..=50_000),
            object: random.in_or_out_of(1..=50_000),
            farthest: random.in_or_out_of(1..=8_000),
        };
        let beyond = [stations, stations + 1, random.bits() as u32];
        let station = if random.once_in(8) { random.one_of(&beyond) } else { random.within(0..=stations) };
        let direction = random.one_of(&DIRECTIONS);
        of_station.count(compare_sight(&heights, direction, station, look));
        let places = random.one_of(&[0, stations.saturating_sub(1), stations, stations, stations + 3]);
        of_profile.count(compare_profile(&mut random, &heights, direction, look, places as usize).0);
    }
    assert!(of_station.numbers() > 5_000, "{} sights", of_station.numbers());
    assert!(of_profile.numbers() > 5_000, "{} profiles", of_profile.numbers());
    for refusal in [19, 20, 17, 21] {
        assert!(of_station.refused(refusal) > 500, "{} refused {refusal}", of_station.refused(refusal));
    }
    for refusal in [19, 17, 21, 14] {
        assert!(of_profile.refused(refusal) > 500, "{} refused {refusal}", of_profile.refused(refusal));
    }
}

/// Roads over 8,000 m: the whole profile up to a near distance, and single stations as far as can be asked for.
#[test]
fn long_roads() {
    let mut random = Random::new(131);
    let (mut hidden, mut far) = (0, 0);
    for round in 0..10 {
        let direction = DIRECTIONS[round % 2];
        let road = roads::steeper(roads::any_long_road(&mut random));
        let heights = heights::of_road(&road);
        let look = |random: &mut Random, farthest: u32| Look {
            eye: random.of_any_size(50_000),
            object: random.of_any_size(50_000),
            farthest,
        };
        let near = look(&mut random, 40);
        let (answer, sights) = compare_profile(&mut random, &heights, direction, near, heights.len());
        assert_eq!(answer, Ok(road.length + 1));
        let left = (0..=road.length).map(|station| match direction {
            Direction::Rising => road.length - station,
            Direction::Falling => station,
        });
        hidden += left.zip(sights).filter(|&(left, sight)| u32::from(sight) < near.farthest.min(left)).count();
        for _ in 0..2 {
            let look = look(&mut random, 8_000);
            let answer = compare_sight(&heights, direction, random.within(0..=road.length), look);
            far += u32::from(answer.is_ok_and(|sight| sight > 500));
        }
    }
    assert!(hidden > 500 && far > 15, "{hidden} stations with a hidden one ahead, {far} that see over 500 m");
}

/// The least time of some calls, which all give this.
fn least_time(calls: usize, answer: u32, ask: impl Fn() -> Answer) -> Duration {
    let times = (0..calls).map(|_| {
        let start = Instant::now();
        assert_eq!(ask(), Ok(answer));
        start.elapsed()
    });
    times.min().expect("there are some calls")
}

/// Their answers do not tell one engine from the other, but their time on a level road does: from one station it is thousands of
/// times that of the quick one, and hundreds of times for the profile.
#[test]
fn slow_engine_takes_its_time() {
    let level = vec![0; 8_001];
    let look = Look { eye: 1, object: 1, farthest: 8_000 };
    let stretch = &level[..600];
    for (direction, station) in DIRECTIONS.into_iter().zip([0, 8_000]) {
        let times = ENGINES.map(|engine| least_time(5, 8_000, || engine.sight(&level, direction, station, look)));
        assert!(times[1] > 20 * times[0], "{direction:?}, sight by the quick and the slow engine: {times:?}");
        let times =
            ENGINES.map(|engine| least_time(5, 600, || engine.profile(stretch, direction, look, &mut [0; 600])));
        assert!(times[1] > 20 * times[0], "{direction:?}, profile by the quick and the slow engine: {times:?}");
    }
}

/// A proof does not tell one engine from the other, for their contracts are the same. That the slow one is another, and is what its
/// exports call, stands in the sources.
#[test]
fn slow_engine_is_another() {
    let exports = text("crates/engine_exports/src/lib.rt");
    for function in ["sight", "profile"] {
        assert_eq!(exports.matches(&format!("(slow_sight::{function}(")).count(), 1, "slow_sight::{function}");
        for source in ["crates/engine_exports/src/lib.rt", "crates/slow_sight/src/lib.rt"] {
            let calls = text(source).replace("slow_sight::", "").contains(&format!("sight::{function}("));
            assert!(!calls, "{source} calls sight::{function}");
        }
    }
}
