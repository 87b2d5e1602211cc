//! docs/RULES.md, "What can be seen": how many sight lines the quick engine compares from a station, towards rising stations.

use exports::Direction::Rising;
use sight_tests::bare;
use sight_tests::engines::{asked, QUICK};
use sight_tests::heights;
use sight_tests::random::Random;
use sight_tests::reference::sight::{sight_comparisons, tried, whole_heights, Look};
use sight_tests::reference::Answer;
use sight_tests::roads;
use sight_tests::tally::Tally;

/// The comparisons that the quick engine counts from a station, which are those of the second calculation.
fn compare(heights: &[i32], station: u32, look: Look) -> Answer {
    let answer = bare(exports::sight_comparisons(heights, Rising, station, asked(look)));
    assert_eq!(answer, sight_comparisons(heights, station, look), "station {station}, {look:?}, {heights:?}");
    answer
}

#[test]
fn cases_of_the_rules() {
    let cases: [(&[i32], u32, u32, u32, u32); 6] = [
        (&[0, 20, 0, 100], 10, 5, 8, 3),
        (&[0, 5, 0], 6, 4, 8, 3),
        (&[0, 6, 0], 6, 4, 8, 3),
        (&[0; 4], 6, 4, 8, 3),
        (&[0; 4], 6, 4, 2, 2),
        (&[7], 6, 4, 8, 0),
    ];
    for (heights, eye, object, farthest, answer) in cases {
        assert_eq!(compare(heights, 0, Look { eye, object, farthest }), Ok(answer), "{heights:?}");
    }
}

/// How many object stations were tried and lines compared, and from how many stations it was one or two for each that was tried.
#[derive(Debug, Default)]
struct Counted {
    tried: usize,
    compared: usize,
    once_each: usize,
    more: usize,
}

impl Counted {
    /// From each station at least one and at most two lines are compared for each object station that is tried, and one for the nearest.
    fn expect(&mut self, heights: &[i32], look: Look) {
        let whole = whole_heights(heights);
        for station in 0..heights.len() {
            let tried = tried(&whole, look, station).count();
            let compared = compare(heights, station as u32, look).expect("the station is on the road") as usize;
            let most = (2 * tried).saturating_sub(1);
            assert!(
                tried <= compared && compared <= most,
                "{compared} for {tried} from {station}, {look:?}, {heights:?}"
            );
            self.tried += tried;
            self.compared += compared;
            self.once_each += usize::from(compared == tried);
            self.more += usize::from(compared > tried);
        }
    }
}

fn any_look(random: &mut Random) -> Look {
    Look { eye: random.of_any_size(50_000), object: random.of_any_size(50_000), farthest: random.of_any_size(100) }
}

#[test]
fn runs_of_short_crests() {
    let mut random = Random::new(132);
    let mut met = Counted::default();
    for _ in 0..1_000 {
        let room = random.within(2..=80);
        let road = roads::run_of_crests(&mut random, room);
        let look = any_look(&mut random);
        met.expect(&heights::of_road(&road), look);
    }
    assert!(met.tried > 200_000 && met.compared > met.tried + 30_000, "{met:?}");
    assert!(met.once_each > 5_000 && met.more > 5_000, "{met:?}");
}

#[test]
fn heights_of_any_value() {
    let mut random = Random::new(133);
    let mut met = Counted::default();
    for round in 0..4_000 {
        let stations = random.within(1..=40) as usize;
        let heights = match round % 2 {
            0 => heights::uneven(&mut random, stations),
            _ => heights::of_any_value(&mut random, stations),
        };
        let look = any_look(&mut random);
        met.expect(&heights, look);
    }
    assert!(met.tried > 100_000 && met.compared > met.tried + 10_000, "{met:?}");
    assert!(met.once_each > 5_000 && met.more > 5_000, "{met:?}");
}

/// The most that there can be: on a level road one for each metre, and behind a hump, whose height the road does not reach again, two.
#[test]
fn farthest_of_all() {
    let look = Look { eye: 50_000, object: 50_000, farthest: 8_000 };
    let level = vec![0; 100_001];
    assert_eq!(compare(&level[..8_001], 0, look), Ok(8_000));
    assert_eq!(bare(exports::sight_comparisons(&level, Rising, 92_000, asked(look))), Ok(8_000));
    let mut hump = vec![0; 8_001];
    hump[1] = 1;
    let road = Look { eye: 1, ..look };
    assert_eq!(QUICK.sight(&hump, Rising, 0, road), Ok(8_000));
    assert_eq!(compare(&hump, 0, road), Ok(15_999));
}

/// It is refused as sight from one station is, whatever is asked.
#[test]
fn refused_as_sight_is() {
    let mut random = Random::new(134);
    let mut answers = Tally::default();
    for _ in 0..20_000 {
        let stations = random.within(0..=20);
        let heights = heights::uneven(&mut random, stations as usize);
        let look = Look {
            eye: random.in_or_out_of(1..=50_000),
            object: random.in_or_out_of(1..=50_000),
            farthest: random.in_or_out_of(1..=8_000),
        };
        let station = random.within(0..=stations + 1);
        let answer = compare(&heights, station, look);
        assert_eq!(
            answer.err(),
            QUICK.sight(&heights, Rising, station, look).err(),
            "station {station}, {look:?}, {heights:?}"
        );
        answers.count(answer);
    }
    assert!(answers.numbers() > 5_000, "{} counts", answers.numbers());
    for refusal in [19, 20, 17, 21] {
        assert!(answers.refused(refusal) > 500, "{} refused {refusal}", answers.refused(refusal));
    }
    assert_eq!(compare(&[0; 100_002], 0, Look { eye: 1, object: 1, farthest: 1 }), Err(19));
}
