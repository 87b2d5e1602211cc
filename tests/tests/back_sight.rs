//! Document 02, P11, "The lane coming back": sight towards falling stations, by either engine, and what the quick one compares.

use std::ops::RangeInclusive;

use exports::Direction::{Falling, Rising};
use sight_tests::bare;
use sight_tests::engines::{asked, ENGINES, QUICK};
use sight_tests::heights;
use sight_tests::lent;
use sight_tests::random::Random;
use sight_tests::reference::back::{available_sight, seen, sight, sight_comparisons, sight_profile, tried};
use sight_tests::reference::marks::{EYE, OBJECT};
use sight_tests::reference::road::{exact_heights, Road};
use sight_tests::reference::sight::{whole_heights, Look};
use sight_tests::reference::Answer;
use sight_tests::roads;
use sight_tests::tally::Tally;

fn look(eye: u32, object: u32, farthest: u32) -> Look {
    Look { eye, object, farthest }
}

/// A look in which low eyes and objects are as likely as high ones.
fn any_look(random: &mut Random, farthest: u32) -> Look {
    look(random.of_any_size(50_000), random.of_any_size(50_000), random.of_any_size(farthest))
}

/// Either engine gives this for the sight from a station.
fn expect_sight(heights: &[i32], station: u32, look: Look, answer: Answer) {
    for engine in ENGINES {
        let own = engine.sight(heights, Falling, station, look);
        assert_eq!(own, answer, "{} engine, station {station}, {look:?}, {heights:?}", engine.name);
    }
}

/// The comparisons from a station, which are those of the second calculation.
fn compare_comparisons(heights: &[i32], station: u32, look: Look) -> Answer {
    let answer = bare(exports::sight_comparisons(heights, Falling, station, asked(look)));
    assert_eq!(answer, sight_comparisons(heights, station, look), "station {station}, {look:?}, {heights:?}");
    answer
}

/// The sight from one station of either engine, which is that of the second calculation. What the quick one compares is refused
/// alike.
fn compare_sight(heights: &[i32], station: u32, look: Look) -> Answer {
    let answer = sight(heights, station, look);
    expect_sight(heights, station, look, answer);
    assert_eq!(compare_comparisons(heights, station, look).err(), answer.err());
    answer
}

/// Either engine fills `places` numbers with sights just as the second calculation does, and the rest stays.
fn compare_profile(random: &mut Random, heights: &[i32], look: Look, places: usize) -> (Answer, Vec<u16>) {
    let before = random.list(places, |bits| bits as u16);
    let second = |list: &mut [u16]| sight_profile(heights, look, list);
    let [compared, _] = ENGINES.map(|engine| {
        let proved = |list: &mut [u16]| engine.profile(heights, Falling, look, list);
        lent::compare(&before, proved, second, format_args!("{} engine, {look:?}, {heights:?}", engine.name))
    });
    compared
}

/// At how many stations a comparison met what it is about.
#[derive(Debug, Default)]
struct Met {
    stations: usize,
    hidden: usize,
    shown_again: usize,
    not_as_rising: usize,
    not_as_turned: usize,
    compared_more: usize,
}

impl Met {
    /// Compares the sight profile, and from each single station the sight, which must agree, and the comparisons, of which there is
    /// at least one and at most two for each object station that is tried, and one for the nearest.
    fn expect(&mut self, random: &mut Random, heights: &[i32], look: Look) {
        let stations = heights.len();
        let more = random.within(0..=3) as usize;
        let (answer, sights) = compare_profile(random, heights, look, stations + more);
        assert_eq!(answer, Ok(stations as u32));
        assert_eq!(compare_profile(random, heights, look, stations - 1).0, Err(14));
        let whole = whole_heights(heights);
        for (i, &own) in sights[..stations].iter().enumerate() {
            expect_sight(heights, i as u32, look, Ok(own.into()));
            let compared = compare_comparisons(heights, i as u32, look).expect("the station is on the list") as usize;
            let tried = tried(&whole, look, i);
            let most = (2 * tried).saturating_sub(1);
            assert!(tried <= compared && compared <= most, "{compared} for {tried} from {i}, {look:?}, {heights:?}");
            let (own, farthest) = (usize::from(own), i.min(look.farthest as usize));
            self.stations += 1;
            self.hidden += usize::from(own < farthest);
            self.shown_again += usize::from((own + 2..=farthest).any(|d| seen(&whole, look, i, d)));
            self.not_as_rising += usize::from(QUICK.sight(heights, Rising, i as u32, look) != Ok(own as u32));
            self.not_as_turned += usize::from(usize::from(sights[stations - 1 - i]) != own);
            self.compared_more += usize::from(compared > tried);
        }
    }
}

/// The cases of the rules with the stations counted from the other end, and one that is not the same both ways: from the high station
/// at its end all of it is seen.
#[test]
fn cases_of_the_rules() {
    let cases: [(&[i32], Look, &[u16]); 6] = [
        (&[100, 0, 20, 0], look(10, 5, 8), &[0, 1, 2, 1]),
        (&[0, 20, 0, 100], look(10, 5, 8), &[0, 1, 1, 3]),
        (&[0, 5, 0], look(6, 4, 8), &[0, 1, 2]),
        (&[0, 6, 0], look(6, 4, 8), &[0, 1, 1]),
        (&[0, 0, 0, 0], look(1, 1, 2), &[0, 1, 2, 2]),
        (&[7], look(6, 4, 8), &[0]),
    ];
    let mut random = Random::new(150);
    for (heights, look, sights) in cases {
        let stations = heights.len();
        assert_eq!(compare_profile(&mut random, heights, look, stations), (Ok(stations as u32), sights.to_vec()));
        for (station, &sight) in (0..).zip(sights) {
            assert_eq!(compare_sight(heights, station, look), Ok(sight.into()), "{heights:?}");
        }
    }
}

/// Eye and object are not exchanged: over a hump of 5 units a metre before the driver the line of sight to the object 3 m away is at
/// (2 e + o) / 3, and over one that is 2 m before the driver at (e + 2 o) / 3.
#[test]
fn eye_and_object() {
    for (heights, look, sight) in [
        (&[0, 0, 5, 0], look(6, 4, 8), 3),
        (&[0, 0, 5, 0], look(4, 6, 8), 2),
        (&[0, 5, 0, 0], look(4, 6, 8), 3),
        (&[0, 5, 0, 0], look(6, 4, 8), 2),
    ] {
        assert_eq!(compare_sight(heights, 3, look), Ok(sight), "{heights:?}, {look:?}");
    }
}

/// Heights of every size: neighbours in value, so that lines of sight touch the road, and the least and greatest.
#[test]
fn random_heights() {
    let mut random = Random::new(151);
    let mut met = Met::default();
    for round in 0..12_000 {
        let stations = random.within(1..=25) as usize;
        let limit = random.one_of(&[3, 10, 20, 10_000]);
        let heights = match round % 4 {
            0 => heights::of_any_value(&mut random, stations),
            1 => heights::uneven(&mut random, stations),
            _ => (0..stations).map(|_| random.signed_within(-limit..=limit)).collect(),
        };
        let greatest = random.one_of(&[2, 10, 20, 10_000, 50_000]);
        let farthest = random.one_of(&[1, 2, 5, 24, 25, 8_000]);
        let look = look(random.within(1..=greatest), random.within(1..=greatest), farthest);
        met.expect(&mut random, &heights, look);
    }
    assert!(met.stations > 120_000 && met.hidden > 40_000 && met.shown_again > 10_000, "{met:?}");
    assert!(met.not_as_rising > 80_000 && met.not_as_turned > 80_000 && met.compared_more > 10_000, "{met:?}");
}

/// Runs of short crests and sags close behind each other.
#[test]
fn runs_of_short_crests() {
    let mut random = Random::new(152);
    let mut met = Met::default();
    for _ in 0..2_500 {
        let room = random.within(2..=80);
        let road = roads::run_of_crests(&mut random, room);
        let road = roads::gentler(road, random.one_of(&[1, 1, 1, 100]));
        let look = if random.once_in(4) { look(EYE, OBJECT, 80) } else { any_look(&mut random, 100) };
        met.expect(&mut random, &heights::of_road(&road), look);
    }
    assert!(met.stations > 50_000 && met.hidden > 7_000 && met.shown_again > 1_500, "{met:?}");
    assert!(met.not_as_rising > 30_000 && met.not_as_turned > 30_000 && met.compared_more > 5_000, "{met:?}");
}

/// The stations of a road from its first curve to so many metres behind its last one.
fn about_the_curves(road: &Road, metres: u32) -> RangeInclusive<usize> {
    let first = road.curves.first().map_or(0, |curve| curve.begin() as usize);
    let last = road.curves.last().map_or(0, |curve| curve.end() as u32 + metres);
    first..=road.length.min(last) as usize
}

/// Runs of short crests far out: cut to two bytes a station would be another one, on a straight.
#[test]
fn runs_of_short_crests_far_out() {
    let mut random = Random::new(153);
    let (mut hidden, mut far) = (0, 0);
    for _ in 0..40 {
        let room = random.within(20..=80);
        let road = roads::steeper(roads::far_run_of_crests(&mut random, room));
        let heights = heights::of_road(&road);
        let look = if random.once_in(2) { look(EYE, OBJECT, 80) } else { any_look(&mut random, 100) };
        let mut sights = vec![0; heights.len()];
        assert_eq!(QUICK.profile(&heights, Falling, look, &mut sights), Ok(road.length + 1));
        for station in about_the_curves(&road, 80) {
            let there = u32::from(sights[station]);
            assert_eq!(compare_sight(&heights, station as u32, look), Ok(there), "{road:?}");
            let less = there < look.farthest.min(station as u32);
            hidden += usize::from(less);
            far += usize::from(less && station > 65_535);
        }
    }
    assert!(hidden > 300 && far > 100, "{hidden} with a hidden station ahead, {far} of them behind 65,535");
}

/// The longest lists, and as far as can be asked for: on a straight everything is seen, up to the greatest of the farthest distances.
#[test]
fn longest_list() {
    let mut random = Random::new(154);
    let road = roads::longest_of_all(&mut random);
    let (answer, _) = compare_profile(&mut random, &heights::of_road(&road), look(EYE, OBJECT, 30), 100_001);
    assert_eq!(answer, Ok(100_001));
    let straight: Vec<i32> = (0..100_001).map(|station| 90_000_000 - 1_500 * station).collect();
    for (station, sight) in [(0, 0), (1, 1), (7_999, 7_999), (8_000, 8_000), (8_001, 8_000), (100_000, 8_000)] {
        assert_eq!(compare_sight(&straight, station, look(1, 1, 8_000)), Ok(sight));
    }
    // Behind a hump whose height the road does not reach again two lines are compared for each station.
    let mut hump = vec![0; 8_001];
    hump[7_999] = 1;
    assert_eq!(compare_comparisons(&hump, 8_000, look(1, 50_000, 8_000)), Ok(15_999));
}

#[test]
fn refusals_at_each_edge() {
    let mut random = Random::new(155);
    let flat = vec![0; 100_002];
    let good = look(EYE, OBJECT, 10);
    for (stations, sight) in [(1, 0), (2, 1), (8_001, 10), (8_002, 10), (65_537, 10), (100_001, 10)] {
        assert_eq!(compare_sight(&flat[..stations], stations as u32 - 1, good), Ok(sight), "{stations} stations");
        let filled = Ok(stations as u32);
        assert_eq!(compare_profile(&mut random, &flat[..stations], good, 100_002).0, filled, "{stations} stations");
    }
    for stations in [0, 100_002] {
        assert_eq!(compare_sight(&flat[..stations], 0, good), Err(19), "{stations} stations");
        assert_eq!(compare_profile(&mut random, &flat[..stations], good, 100_002).0, Err(19), "{stations} stations");
    }
    let heights = &flat[..50];
    for (station, answer) in [(0, Ok(0)), (1, Ok(1)), (10, Ok(10)), (49, Ok(10))] {
        assert_eq!(compare_sight(heights, station, good), answer, "station {station}");
    }
    // Counted from the other end some of these would be on the list.
    for station in [50, 51, 99, 8_001, 65_536, 65_546, 100_001, u32::MAX - 49, u32::MAX] {
        assert_eq!(compare_sight(heights, station, good), Err(20), "station {station}");
    }
    for (height, accepted) in [(0, false), (1, true), (50_000, true), (50_001, false), (u32::MAX, false)] {
        for look in [Look { eye: height, ..good }, Look { object: height, ..good }] {
            assert_eq!(compare_sight(heights, 49, look), if accepted { Ok(10) } else { Err(17) }, "{look:?}");
            let filled = compare_profile(&mut random, heights, look, 50).0;
            assert_eq!(filled, if accepted { Ok(50) } else { Err(17) }, "{look:?}");
        }
    }
    let accepted = [(1, 1), (49, 49), (50, 49), (8_000, 49)].map(|(farthest, sight)| (farthest, Ok(sight)));
    let refused = [0, 8_001, 65_537, u32::MAX].map(|farthest| (farthest, Err(21)));
    for (farthest, answer) in accepted.into_iter().chain(refused) {
        let look = Look { farthest, ..good };
        assert_eq!(compare_sight(heights, 49, look), answer, "{look:?}");
        assert_eq!(compare_profile(&mut random, heights, look, 50).0, answer.map(|_| 50), "{look:?}");
    }
    for (places, answer) in [(0, Err(14)), (49, Err(14)), (50, Ok(50)), (51, Ok(50))] {
        assert_eq!(compare_profile(&mut random, heights, good, places).0, answer, "{places} places");
    }
}

/// With more than one fault the first of 19, 20, 17, 21 decides for one station, and of 19, 17, 21, 14 for the profile.
#[test]
fn refusals_in_order() {
    let mut random = Random::new(156);
    let (mut of_station, mut of_profile) = (Tally::default(), Tally::default());
    for faults in 0..16 {
        let has = |fault: u32| faults >> fault & 1 == 1;
        let first = |order: [u32; 4], good: u32| {
            (0..).zip(order).find(|&(at, _)| has(at)).map_or(Ok(good), |(_, refusal)| Err(refusal))
        };
        let heights = vec![0; if has(0) { random.one_of(&[0, 100_002]) } else { 20 }];
        let bad = random.one_of(&[0, 50_001]);
        let (eye, object) = random.one_of(&[(bad, 1), (1, bad), (bad, bad)]);
        let look = |heights_bad: bool, distance_bad: bool| Look {
            eye: if heights_bad { eye } else { EYE },
            object: if heights_bad { object } else { OBJECT },
            farthest: if distance_bad { bad } else { 5 },
        };
        let answer = compare_sight(&heights, if has(1) { 100_002 } else { 19 }, look(has(2), has(3)));
        assert_eq!(answer, first([19, 20, 17, 21], 5));
        of_station.count(answer);
        let places = if has(3) { 19 } else { 20 };
        let (answer, _) = compare_profile(&mut random, &heights, look(has(1), has(2)), places);
        assert_eq!(answer, first([19, 17, 21, 14], 20));
        of_profile.count(answer);
    }
    assert_eq!([19, 20, 17, 21].map(|refusal| of_station.refused(refusal)), [8, 4, 2, 1]);
    assert_eq!([19, 17, 21, 14].map(|refusal| of_profile.refused(refusal)), [8, 4, 2, 1]);
}

/// The accuracy rule covers this direction: the sight lies between the sight on the exact profile with eye and object each a tenth of a
/// millimetre lower, and with each as much higher.
#[test]
fn accuracy_rule() {
    let mut random = Random::new(157);
    let (mut stations, mut below, mut above) = (0, 0, 0);
    for round in 0..1_500 {
        let room = random.within(2..=60);
        let road = match round % 4 {
            0 => roads::one_curve(&mut random, room),
            1 => roads::sparse(&mut random, room),
            _ => roads::run_of_crests(&mut random, room),
        };
        let road = roads::gentler(road, random.one_of(&[1, 10, 100, 100]));
        let [eye, object] = [EYE, OBJECT].map(|own| random.one_of(&[1, 2, 5, 50, 500, own, 50_000]));
        let look = look(eye, object, random.one_of(&[60, 60, 20, 8_000]));
        let (heights, mut sights) = (heights::of_road(&road), vec![0; road.length as usize + 1]);
        assert_eq!(QUICK.profile(&heights, Falling, look, &mut sights), Ok(road.length + 1));
        let exact = exact_heights(&road);
        let lower = Look { eye: eye - 1, object: object - 1, ..look };
        let higher = Look { eye: eye + 1, object: object + 1, ..look };
        for (i, &there) in sights.iter().enumerate() {
            let there = usize::from(there);
            let [least, most] = [lower, higher].map(|look| available_sight(&exact, look, i));
            assert!(least <= there && there <= most, "{least}, {there}, {most} from {i}, {look:?}, {road:?}");
            stations += 1;
            below += usize::from(least < there);
            above += usize::from(there < most);
        }
    }
    assert!(stations > 20_000 && below > 700 && above > 700, "{stations} stations, {below} below, {above} above");
}
