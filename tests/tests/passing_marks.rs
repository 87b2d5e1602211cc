//! docs/RULES.md, "Passing": the marks of lent heights, and the zones of these marks.

use sight_tests::bare;
use sight_tests::heights;
use sight_tests::lent;
use sight_tests::random::Random;
use sight_tests::reference::marks::{runs, EYE};
use sight_tests::reference::passing::{passing_marks, OBJECT};
use sight_tests::reference::road::{exact_heights, Road};
use sight_tests::reference::sight::{available_sight, seen, whole_heights, Look};
use sight_tests::reference::Answer;
use sight_tests::roads::{self, in_version, VERSIONS};
use sight_tests::tally::Tally;

const LACKING: u8 = 1 << exports::PASSING_LACKING_BIT;
const NOT_JUDGED: u8 = 1 << exports::PASSING_NOT_JUDGED_BIT;

/// The program marks `places` bytes just as the second calculation does, and the rest stays.
fn compare(random: &mut Random, heights: &[i32], distance: u32, places: usize) -> (Answer, Vec<u8>) {
    let proved = |list: &mut [u8]| bare(exports::passing_marks(heights, distance, list));
    let second = |list: &mut [u8]| passing_marks(heights, distance, list);
    let before = random.list(places, |bits| bits as u8);
    lent::compare(&before, proved, second, format_args!("distance {distance}, {heights:?}"))
}

/// Compares in lists that are one place too short, empty, longer, and just long enough. Answers the marks.
fn compare_all(random: &mut Random, heights: &[i32], distance: u32) -> Vec<u8> {
    let stations = heights.len();
    let all = Ok(stations as u32);
    assert_eq!(compare(random, heights, distance, stations - 1).0, Err(14));
    assert_eq!(compare(random, heights, distance, 0).0, Err(14));
    let more = random.within(1..=3) as usize;
    assert_eq!(compare(random, heights, distance, stations + more).0, all);
    let (answer, marks) = compare(random, heights, distance, stations);
    assert_eq!(answer, all);
    marks
}

/// The zones of a bit of the marks, as the program writes them.
fn zones(marks: &[u8], bit: u32) -> Vec<[u32; 2]> {
    let mut ends = vec![0; exports::MOST_ENDS];
    let many = exports::zones(marks, bit, &mut ends).expect("the bit is accepted and the list has room") as usize;
    ends[..2 * many].chunks_exact(2).map(|zone| [zone[0], zone[1]]).collect()
}

/// The zones of all bits are the runs of the marks: only bits 5 and 6 have any, and those of bit 6 are the last
/// stations.
fn expect_zones(marks: &[u8], distance: u32) {
    for bit in 0..=6 {
        assert_eq!(zones(marks, bit), runs(marks, bit), "bit {bit}, {marks:?}");
        assert!(bit >= 5 || runs(marks, bit).is_empty(), "bit {bit}, {marks:?}");
    }
    let last = marks.len() as u32 - 1;
    let first = (last + 1).saturating_sub(distance);
    assert_eq!(zones(marks, 6), [[first, last]], "distance {distance}");
}

/// At how many stations passing sight is lacking, is there, and is not judged. A mark says nothing else.
#[derive(Debug, Default)]
struct Met {
    lacking: usize,
    there: usize,
    not_judged: usize,
}

impl Met {
    fn count(&mut self, marks: &[u8]) {
        for &mark in marks {
            match mark {
                LACKING => self.lacking += 1,
                NOT_JUDGED => self.not_judged += 1,
                0 => self.there += 1,
                _ => panic!("the mark {mark} has other bits"),
            }
        }
    }
}

/// Compares marks and their zones, and counts the stations. Answers the marks.
fn compare_and_count(random: &mut Random, met: &mut Met, heights: &[i32], distance: u32) -> Vec<u8> {
    let marks = compare_all(random, heights, distance);
    expect_zones(&marks, distance);
    met.count(&marks);
    marks
}

/// Over a hump in the middle the line of sight just touches the road; one h-unit more hides what is behind it. So it
/// is on the level and where one end is higher.
#[test]
fn touching_the_road() {
    let mut random = Random::new(52);
    assert_eq!(compare_all(&mut random, &[0, 10_800, 0], 2), [0, 64, 64]);
    assert_eq!(compare_all(&mut random, &[0, 10_801, 0], 2), [32, 64, 64]);
    assert_eq!(compare_all(&mut random, &[0, 10_800, 0], 3), [64, 64, 64]);
    for (first, last, middle) in [(0, 1_000, 11_300), (1_000, 0, 11_300), (-7, 7, 10_800), (-500, -500, 10_300)] {
        for (middle, mark) in [(middle, 0), (middle + 1, LACKING)] {
            let expected = [mark, NOT_JUDGED, NOT_JUDGED];
            assert_eq!(compare_all(&mut random, &[first, middle, last], 2), expected, "{first}, {middle}, {last}");
        }
    }
}

/// Humps at stations 5 and 12 of a level road of 19 m, and a distance of 3 m: one looks over neither from the two
/// stations before it, and the last three stations are not judged.
#[test]
fn two_humps() {
    let mut heights = [0; 20];
    (heights[5], heights[12]) = (20_000, 20_000);
    let marks = compare_all(&mut Random::new(53), &heights, 3);
    assert_eq!((zones(&marks, 5), zones(&marks, 6)), (vec![[3, 4], [10, 11]], vec![[17, 19]]));
    expect_zones(&marks, 3);
}

/// The same behind station 65,535 of a level road of 100,000 m, and up to its end.
#[test]
fn humps_far_out() {
    let mut heights = vec![0; 100_001];
    (heights[65_541], heights[99_990]) = (20_000, 20_000);
    let marks = compare_all(&mut Random::new(67), &heights, 3);
    assert_eq!(zones(&marks, 5), [[65_539, 65_540], [99_988, 99_989]]);
    assert_eq!(zones(&marks, 6), [[99_998, 100_000]]);
    expect_zones(&marks, 3);
}

/// From how many stations that lack sight the far end of the distance is seen all the same, behind a hidden station.
fn far_end_shown_again(heights: &[i32], marks: &[u8], distance: u32) -> usize {
    let (whole, look) = (whole_heights(heights), Look { eye: EYE, object: OBJECT, farthest: distance });
    let far_end_seen = |i: usize| seen(&whole, look, i, i + distance as usize);
    (0..marks.len()).filter(|&i| marks[i] == LACKING && far_end_seen(i)).count()
}

/// Runs of short crests and sags close behind each other, with a straight behind them so that they are judged. From
/// some stations the far end of the distance shows again behind a hidden station: there too sight is lacking.
#[test]
fn random_runs_of_short_crests() {
    let mut random = Random::new(54);
    let (mut met, mut shown_again) = (Met::default(), 0);
    for _ in 0..5_000 {
        let room = random.within(2..=80);
        let distance = random.within(1..=60);
        let mut road = roads::steeper(roads::run_of_crests(&mut random, room));
        road.length += random.within(0..=distance);
        let heights = heights::of_road(&road);
        let marks = compare_and_count(&mut random, &mut met, &heights, distance);
        shown_again += far_end_shown_again(&heights, &marks, distance);
    }
    assert!(met.lacking > 10_000 && met.there > 100_000 && met.not_judged > 100_000, "{met:?}");
    assert!(shown_again > 1_000, "{shown_again} where the far end shows again");
}

/// The same far out, over and behind stations that two bytes do not hold.
#[test]
fn random_runs_of_short_crests_far_out() {
    let mut random = Random::new(65);
    let mut far = Met::default();
    for _ in 0..8 {
        let road = roads::steeper(roads::far_run_of_crests(&mut random, 150));
        let (heights, distance) = (heights::of_road(&road), random.within(30..=45));
        let (answer, marks) = compare(&mut random, &heights, distance, heights.len());
        assert_eq!(answer, Ok(road.length + 1));
        expect_zones(&marks, distance);
        far.count(&marks[8_000..]);
    }
    assert!(far.lacking > 20 && far.there > 10_000 && far.not_judged > 200, "{far:?}");
}

#[test]
fn random_roads_of_every_kind() {
    let mut random = Random::new(55);
    let mut met = Met::default();
    for _ in 0..1_500 {
        let road = roads::any_road(&mut random);
        let distance = random.within(1..=60);
        compare_and_count(&mut random, &mut met, &heights::of_road(&road), distance);
    }
    assert!(met.lacking > 1_000 && met.there > 50_000 && met.not_judged > 5_000, "{met:?}");
}

/// Distances as manoeuvres need them, 175 to 930 m, on runs of short crests and on few long curves.
#[test]
fn distances_that_are_needed() {
    let mut random = Random::new(64);
    let mut met = Met::default();
    for round in 0..40 {
        let distance = 5 * random.within(35..=186);
        let mut road = match round % 2 {
            0 => roads::steeper(roads::run_of_crests(&mut random, 150)),
            _ => roads::sparse(&mut random, 400),
        };
        road.length += distance;
        let heights = heights::of_road(&road);
        let (answer, marks) = compare(&mut random, &heights, distance, heights.len());
        assert_eq!(answer, Ok(heights.len() as u32));
        expect_zones(&marks, distance);
        met.count(&marks);
    }
    assert!(met.lacking > 500 && met.there > 500 && met.not_judged > 10_000, "{met:?}");
}

#[test]
fn random_heights() {
    let mut random = Random::new(56);
    let (mut met, mut shown_again) = (Met::default(), 0);
    for round in 0..6_000 {
        let stations = random.within(1..=120) as usize;
        let heights = match round % 10 {
            0 => heights::of_any_value(&mut random, stations),
            _ => heights::uneven(&mut random, stations),
        };
        let distance = random.of_any_size(150);
        let marks = compare_and_count(&mut random, &mut met, &heights, distance);
        shown_again += far_end_shown_again(&heights, &marks, distance);
    }
    assert!(met.lacking > 20_000 && met.there > 100_000 && met.not_judged > 50_000, "{met:?}");
    assert!(shown_again > 1_000, "{shown_again} where the far end shows again");
}

/// A station is judged where the distance from it ends at the last station or before: on a level road nothing is
/// lacking, and the last stations, as many as the distance has metres, say that they are not judged.
#[test]
fn near_the_end_nothing_is_lacking() {
    let mut random = Random::new(57);
    for stations in [1, 2, 3, 20, 60] {
        for distance in (1..=stations + 2).chain([8_000]) {
            let marks = compare_all(&mut random, &vec![0; stations], distance as u32);
            for (i, mark) in marks.into_iter().enumerate() {
                let expected = if i + distance < stations { 0 } else { NOT_JUDGED };
                assert_eq!(mark, expected, "station {i} of {stations}, distance {distance}");
            }
        }
    }
}

/// There is no station between neighbours: for a distance of 1 m nothing is lacking, whatever the heights are. One
/// station alone is not judged for any distance.
#[test]
fn the_shortest_distance_and_the_shortest_list() {
    let mut random = Random::new(58);
    for _ in 0..1_000 {
        let stations = random.within(1..=40) as usize;
        let heights = heights::of_any_value(&mut random, stations);
        let mut expected = vec![0; stations];
        expected[stations - 1] = NOT_JUDGED;
        assert_eq!(compare_all(&mut random, &heights, 1), expected, "{heights:?}");
    }
    for height in [i32::MIN, -1, 0, 1, i32::MAX] {
        for distance in [1, 2, 930, 8_000] {
            assert_eq!(compare_all(&mut random, &[height], distance), [NOT_JUDGED], "{height}, distance {distance}");
        }
    }
}

#[test]
fn longest_list() {
    let mut random = Random::new(59);
    let road = heights::of_road(&roads::longest_of_all(&mut random));
    assert_eq!(road.len(), exports::GREATEST_LIST);
    let uneven = heights::uneven(&mut random, exports::GREATEST_LIST);
    let mut met = Met::default();
    for distance in [10, 40] {
        for heights in [&road, &uneven] {
            compare_and_count(&mut random, &mut met, heights, distance);
        }
    }
    assert!(met.lacking > 500 && met.there > 10_000 && met.not_judged == 2 * (10 + 40), "{met:?}");
}

/// From the greatest height down to nearly the least everything is seen, over as many stations as there can be: only
/// the last ones are not judged, all of them where the distance is a metre more than the road.
#[test]
fn greatest_distance() {
    let mut random = Random::new(60);
    let falling: Vec<i32> = (0..8_001).map(|station| (i64::from(i32::MAX) - 536_870 * station) as i32).collect();
    for (stations, distance, there) in [(8_001, 8_000, 1), (8_001, 7_999, 2), (8_000, 8_000, 0), (8_000, 7_999, 1)] {
        let (answer, marks) = compare(&mut random, &falling[..stations], distance, stations);
        assert_eq!(answer, Ok(stations as u32));
        let expected = [vec![0; there], vec![NOT_JUDGED; stations - there]].concat();
        assert_eq!(marks, expected, "{stations} stations, distance {distance}");
    }
    let mut hump = [0; 8_001];
    for (height, mark) in [(10_800, 0), (10_801, LACKING)] {
        hump[4_000] = height;
        assert_eq!(compare(&mut random, &hump, exports::GREATEST_FARTHEST, 8_001).1[0], mark, "height {height}");
    }
}

#[test]
fn refusals_at_each_edge() {
    let mut random = Random::new(61);
    let flat = vec![0; 100_002];
    let accepted = [1, 8_001, 8_002, 65_537, 100_001].map(|stations| (stations, Ok(stations as u32)));
    for (stations, answer) in accepted.into_iter().chain([(0, Err(19)), (100_002, Err(19))]) {
        assert_eq!(compare(&mut random, &flat[..stations], 10, 100_002).0, answer, "{stations} stations");
    }
    for distance in [1, 2, 29, 30, 31, 7_999, 8_000] {
        assert_eq!(compare(&mut random, &flat[..30], distance, 30).0, Ok(30), "distance {distance}");
    }
    for distance in [0, 8_001, 8_002, 65_536, 65_537, 73_536, 0x8000_0001, u32::MAX] {
        assert_eq!(compare(&mut random, &flat[..30], distance, 30).0, Err(21), "distance {distance}");
    }
    for (places, answer) in [(0, Err(14)), (29, Err(14)), (30, Ok(30)), (31, Ok(30))] {
        assert_eq!(compare(&mut random, &flat[..30], 10, places).0, answer, "{places} places");
    }
}

/// With more than one fault the first of 19, 21, 14 decides.
#[test]
fn refusals_in_order() {
    let mut random = Random::new(62);
    let mut tally = Tally::default();
    for (stations, wrong_list) in [(0, true), (100_002, true), (20, false)] {
        for (distance, wrong_distance) in [(0, true), (8_001, true), (u32::MAX, true), (5, false)] {
            for (places, too_short) in [(0, true), (19, true), (20, false)] {
                let faults = [(wrong_list, 19), (wrong_distance, 21), (too_short, 14)];
                let expected = faults.into_iter().find(|fault| fault.0).map_or(Ok(20), |(_, refusal)| Err(refusal));
                let (answer, _) = compare(&mut random, &vec![0; stations], distance, places);
                assert_eq!(answer, expected, "{stations} stations, distance {distance}, {places} places");
                tally.count(answer);
            }
        }
    }
    assert_eq!([19, 21, 14].map(|refusal| tally.refused(refusal)), [2 * 4 * 3, 3 * 3, 2]);
    assert_eq!(tally.numbers(), 1);
}

/// Drop a, length L and distance S of crests shorter than S over which the line of sight all but touches the road.
/// With x metres of S before the PVI and y behind it, as nearly equal as can be, the line passes a (x y / S − L / 8)
/// below the road there: one drop makes this a little less than 10,800 or just that, and the next a little more.
fn all_but_touching() -> Vec<[u32; 3]> {
    let mut crests = Vec::new();
    for distance in 15..=40 {
        let (x, y) = (distance / 2, distance - distance / 2);
        for length in (2..distance).step_by(2) {
            let drop = 86_400 * distance / (8 * x * y - length * distance);
            crests.extend([drop, drop + 1].map(|drop| [drop, length, distance]));
        }
    }
    crests.retain(|&[drop, _, _]| drop <= 3_000);
    crests
}

/// What the accuracy rule was tested on: stations that lack passing sight and that have it; where the rounding of heights changes the
/// mark; and where it is not that of either bound.
#[derive(Debug, Default)]
struct Accuracy {
    lacking: usize,
    there: usize,
    rounding_tells: usize,
    below: usize,
    above: usize,
}

impl Accuracy {
    /// About the middle before the crest a station lacks passing sight where it does on the exact profile with eye and object one
    /// h-unit higher, and does not where it has it there with each one lower.
    fn expect(&mut self, road: &Road, marks: &[u8], distance: u32) {
        let exact = exact_heights(road);
        // The three stations from which the PVI is about half as far as the distance.
        let middle = (road.curves[0].pvi - distance / 2) as usize;
        for (i, &mark) in marks.iter().enumerate().skip(middle - 1).take(3) {
            let [lower, same, higher] = [EYE - 1, EYE, EYE + 1].map(|height| {
                let look = Look { eye: height, object: height, farthest: distance };
                available_sight(&exact, look, i) < distance as usize
            });
            let lacks = mark == LACKING;
            assert!(higher <= lacks && lacks <= lower, "station {i}, distance {distance}, {road:?}");
            *(if lacks { &mut self.lacking } else { &mut self.there }) += 1;
            self.rounding_tells += usize::from(lacks != same);
            self.below += usize::from(lacks != lower);
            self.above += usize::from(lacks != higher);
        }
    }
}

/// The accuracy rule at these heights, on roads of either version.
#[test]
fn accuracy_rule() {
    let mut random = Random::new(64);
    let mut met = Accuracy::default();
    for [drop, length, distance] in all_but_touching() {
        let first_grade = random.signed_within(drop as i32 - 1_500..=1_500) as i16;
        let road = roads::one_crest(first_grade, drop as i16, length as u16, distance);
        let road = in_version(random.one_of(&VERSIONS), &road);
        let marks = compare_all(&mut random, &heights::of_road(&road), distance);
        met.expect(&road, &marks, distance);
    }
    assert!(met.lacking > 300 && met.there > 1_000, "{met:?}");
    assert!(met.rounding_tells >= 10, "{met:?}");
    assert!(met.below > 100 && met.above > 20, "{met:?}");
}

/// The same at the far end of a road of more than 8,000 m.
#[test]
fn accuracy_rule_far_out() {
    let mut random = Random::new(66);
    let mut met = Accuracy::default();
    for [drop, length, distance] in all_but_touching().into_iter().step_by(9) {
        let first_grade = random.signed_within(drop as i32 - 1_500..=1_500) as i16;
        let road = roads::one_crest(first_grade, drop as i16, length as u16, distance);
        let before = random.one_of(&[9_000, 70_000, 100_000]) - road.length;
        let road = roads::moved(road, before);
        let mut marks = vec![0; road.length as usize + 1];
        assert_eq!(exports::passing_marks(&heights::of_road(&road), distance, &mut marks), Ok(road.length + 1));
        met.expect(&road, &marks, distance);
    }
    assert!(met.lacking > 30 && met.there > 50 && met.below > 5, "{met:?}");
}
