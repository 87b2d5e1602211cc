//! docs/RULES.md, "What can be seen": sight towards rising stations by either engine over lent heights, over those of roads of either
//! version, and on the exact parabolas and straights.

use std::ops::RangeInclusive;

use exports::Direction::Rising;
use sight_tests::engines::{ENGINES, QUICK};
use sight_tests::heights;
use sight_tests::lent;
use sight_tests::random::Random;
use sight_tests::reference::distances::required_distance;
use sight_tests::reference::marks::{EYE, OBJECT};
use sight_tests::reference::road::{exact_heights, marking_grade, stored_height, Road};
use sight_tests::reference::sight::{
    ahead, available_sight, clears, seen, sight, sight_profile, whole_heights, Height, Look,
};
use sight_tests::reference::Answer;
use sight_tests::roads;
use sight_tests::tally::Tally;

fn look(eye: u32, object: u32, farthest: u32) -> Look {
    Look { eye, object, farthest }
}

/// A look in which low eyes and objects are as likely as high ones.
fn any_look(random: &mut Random, farthest: u32) -> Look {
    look(random.of_any_size(50_000), random.of_any_size(50_000), random.of_any_size(farthest))
}

/// Either engine gives this for the sight from a station.
fn expect_sight(heights: &[i32], station: u32, look: Look, answer: Answer) {
    for engine in ENGINES {
        let own = engine.sight(heights, Rising, station, look);
        assert_eq!(own, answer, "{} engine, station {station}, {look:?}, {heights:?}", engine.name);
    }
}

/// The sight from one station of either engine, which is that of the second calculation.
fn compare_sight(heights: &[i32], station: u32, look: Look) -> Answer {
    let answer = sight(heights, station, look);
    expect_sight(heights, station, look, answer);
    answer
}

/// Either engine fills `places` numbers with sights just as the second calculation does, and the rest stays.
fn compare_profile(random: &mut Random, heights: &[i32], look: Look, places: usize) -> (Answer, Vec<u16>) {
    let before = random.list(places, |bits| bits as u16);
    let second = |list: &mut [u16]| sight_profile(heights, look, list);
    let [compared, _] = ENGINES.map(|engine| {
        let proved = |list: &mut [u16]| engine.profile(heights, Rising, look, list);
        lent::compare(&before, proved, second, format_args!("{} engine, {look:?}, {heights:?}", engine.name))
    });
    compared
}

/// Compares the sight profile and the sight from each single station, which must agree. Answers the sights.
fn compare_all(random: &mut Random, heights: &[i32], look: Look) -> Vec<u16> {
    let stations = heights.len();
    let more = random.within(0..=3) as usize;
    let (answer, mut sights) = compare_profile(random, heights, look, stations + more);
    assert_eq!(answer, Ok(stations as u32));
    assert_eq!(compare_profile(random, heights, look, stations - 1).0, Err(14));
    sights.truncate(stations);
    for (station, &there) in (0..).zip(&sights) {
        expect_sight(heights, station, look, Ok(there.into()));
    }
    sights
}

#[test]
fn cases_of_the_rules() {
    let cases: [(&[i32], Look, u16); 4] = [
        (&[0, 20, 0, 100], look(10, 5, 8), 1),
        (&[0, 5, 0], look(6, 4, 8), 2),
        (&[0, 6, 0], look(6, 4, 8), 1),
        (&[7], look(6, 4, 8), 0),
    ];
    let mut random = Random::new(12);
    for (heights, look, answer) in cases {
        assert_eq!(compare_sight(heights, 0, look), Ok(answer.into()), "{heights:?}");
        assert_eq!(compare_all(&mut random, heights, look)[0], answer, "{heights:?}");
    }
}

/// The line from the eye at i to the object at j touches the road at k.
fn touches(heights: &[i64], look: Look, i: usize, k: usize, j: usize) -> bool {
    let [before, behind] = [k - i, j - k].map(|metres| metres as i64);
    let [eye, object] = [heights[i] + i64::from(look.eye), heights[j] + i64::from(look.object)];
    eye * behind + object * before == heights[k] * (before + behind)
}

/// At how many stations a comparison met what it is about.
#[derive(Default)]
struct Met {
    stations: usize,
    hidden: usize,
    shown_again: usize,
    touching: usize,
}

impl Met {
    fn count(&mut self, heights: &[i32], look: Look, sights: &[u16]) {
        let whole = whole_heights(heights);
        for (i, &sight) in sights.iter().enumerate() {
            let sight = usize::from(sight);
            let mut beyond = ahead(&whole, look, i).skip(sight);
            let touching = (i + 1..=i + sight).any(|j| (i + 1..j).any(|k| touches(&whole, look, i, k, j)));
            self.stations += 1;
            self.hidden += usize::from(beyond.next().is_some());
            self.shown_again += usize::from(beyond.any(|j| seen(&whole, look, i, j)));
            self.touching += usize::from(touching);
        }
    }
}

/// Heights of every size: neighbours in value, so that lines of sight touch the road, and the least and greatest.
#[test]
fn random_heights() {
    let mut random = Random::new(13);
    let mut met = Met::default();
    for _ in 0..20_000 {
        let stations = random.within(1..=25);
        let limit = random.one_of(&[3, 10, 20, 10_000, 1_000_000, i32::MAX]);
        let heights: Vec<i32> = (0..stations)
            .map(|_| match random.within(0..=19) {
                0 if limit > 10_000 => i32::MIN,
                1 if limit > 10_000 => i32::MAX,
                _ => random.signed_within(-limit..=limit),
            })
            .collect();
        let greatest = random.one_of(&[2, 10, 20, 10_000, 50_000]);
        let farthest = random.one_of(&[1, 2, 5, 24, 25, 8_000]);
        let look = look(random.within(1..=greatest), random.within(1..=greatest), farthest);
        let sights = compare_all(&mut random, &heights, look);
        met.count(&heights, look, &sights);
    }
    assert!(met.stations > 200_000, "{} stations", met.stations);
    assert!(met.hidden > 50_000, "{} with a hidden station ahead", met.hidden);
    assert!(met.shown_again > 20_000, "{} where a farther one shows again", met.shown_again);
    assert!(met.touching > 1_500, "{} with a line that touches the road", met.touching);
}

/// On a straight everything is seen: the farthest distance or the stations left, whichever is less.
#[test]
fn straights() {
    let mut random = Random::new(14);
    for grade in [-2, -1, 0, 1, 2] {
        for stations in 1..=40 {
            let heights: Vec<i32> = (0..stations).map(|station| grade * station).collect();
            let farthest = random.within(1..=60);
            let sights = compare_all(&mut random, &heights, look(1, 1, farthest));
            assert!((0..stations as u32).rev().zip(sights).all(|(left, there)| u32::from(there) == left.min(farthest)));
        }
    }
}

/// Runs of short crests and sags close behind each other: their heights filled by the program, then their sights. The
/// two wrong look-aheads below would be caught at many of their stations.
#[test]
fn random_runs_of_short_crests() {
    let mut random = Random::new(15);
    let mut met = Met::default();
    let (mut missed_by_nearest, mut missed_by_late) = (0, 0);
    for _ in 0..5_000 {
        let room = random.within(2..=80);
        let road = roads::run_of_crests(&mut random, room);
        let road = roads::gentler(road, random.one_of(&[1, 1, 1, 100]));
        let heights = heights::of_road(&road);
        let look = if random.once_in(4) { look(EYE, OBJECT, 80) } else { any_look(&mut random, 100) };
        let sights = compare_all(&mut random, &heights, look);
        met.count(&heights, look, &sights);
        let (whole, late) = (whole_heights(&heights), heights_read(&road, Turn::AfterTheStation));
        for (i, &there) in sights.iter().enumerate() {
            missed_by_nearest += usize::from(sight_over_nearest_curve(&road, &whole, look, i) > usize::from(there));
            missed_by_late += usize::from(available_sight(&late, look, i) > usize::from(there));
        }
    }
    assert!(met.stations > 100_000, "{} stations", met.stations);
    assert!(met.hidden > 15_000, "{} with a hidden station ahead", met.hidden);
    assert!(met.shown_again > 3_000, "{} where a farther one shows again", met.shown_again);
    assert!(missed_by_nearest > 6_000, "{missed_by_nearest} where the nearest curve alone shows more");
    assert!(missed_by_late > 4_000, "{missed_by_late} where turning late shows more");
}

/// The stations of a road from so many metres before its first curve to as many behind its last one.
fn about_the_curves(road: &Road, metres: u32) -> RangeInclusive<usize> {
    let first = road.curves.first().map_or(0, |curve| (curve.begin() as usize).saturating_sub(metres as usize));
    let last = road.curves.last().map_or(0, |curve| curve.end() as u32 + metres);
    first..=road.length.min(last) as usize
}

/// Runs of short crests and sags far out: about them the sights of the profile and of single stations are those of the second
/// calculation. Cut to two bytes a station would be another one, on a straight.
#[test]
fn random_runs_of_short_crests_far_out() {
    let mut random = Random::new(22);
    let (mut stations, mut hidden, mut far) = (0, 0, 0);
    for _ in 0..40 {
        let room = random.within(20..=80);
        let road = roads::steeper(roads::far_run_of_crests(&mut random, room));
        let heights = heights::of_road(&road);
        let look = if random.once_in(2) { look(EYE, OBJECT, 80) } else { any_look(&mut random, 100) };
        let mut sights = vec![0; heights.len()];
        assert_eq!(QUICK.profile(&heights, Rising, look, &mut sights), Ok(road.length + 1));
        for station in about_the_curves(&road, 80) {
            let there = u32::from(sights[station]);
            assert_eq!(compare_sight(&heights, station as u32, look), Ok(there), "{road:?}");
            stations += 1;
            let most = look.farthest.min(road.length - station as u32);
            hidden += usize::from(there < most);
            far += usize::from(there < most && station > 65_535);
        }
    }
    assert!(stations > 4_000, "{stations} stations");
    assert!(hidden > 500 && far > 200, "{hidden} with a hidden station ahead, {far} of them behind 65,535");
}

#[test]
fn longest_list() {
    let mut random = Random::new(16);
    for road in [roads::longest(&mut random), roads::longest_of_all(&mut random)] {
        let heights = heights::of_road(&road);
        assert_eq!(heights.len(), road.length as usize + 1);
        compare_all(&mut random, &heights, look(EYE, OBJECT, 30));
    }
    // On a straight everything is seen, up to the greatest of the farthest distances.
    let straight: Vec<i32> = (0..100_001).map(|station| 90_000_000 - 1_500 * station).collect();
    for (station, sight) in [(0, 8_000), (92_000, 8_000), (92_001, 7_999), (99_999, 1), (100_000, 0)] {
        assert_eq!(compare_sight(&straight, station, look(1, 1, 8_000)), Ok(sight));
    }
}

#[test]
fn refusals_at_each_edge() {
    let mut random = Random::new(17);
    let flat = vec![0; 100_002];
    let good = look(EYE, OBJECT, 10);
    let accepted = [(1, 0), (2, 1), (8_001, 10), (8_002, 10), (65_537, 10), (100_001, 10)];
    let accepted = accepted.map(|(stations, sight)| (stations, Ok(sight)));
    for (stations, answer) in accepted.into_iter().chain([(0, Err(19)), (100_002, Err(19))]) {
        assert_eq!(compare_sight(&flat[..stations], 0, good), answer, "{stations} stations");
        let filled = answer.map(|_| stations as u32);
        assert_eq!(compare_profile(&mut random, &flat[..stations], good, 100_002).0, filled, "{stations} stations");
    }
    let heights = &flat[..50];
    for (station, answer) in [(0, 10), (48, 1), (49, 0)] {
        assert_eq!(compare_sight(heights, station, good), Ok(answer), "station {station}");
    }
    for station in [50, 8_001, 65_536, 65_546, 100_001, u32::MAX] {
        assert_eq!(compare_sight(heights, station, good), Err(20), "station {station}");
    }
    for station in [100_001, 100_002, 131_072, u32::MAX] {
        assert_eq!(compare_sight(&flat[..100_001], station, good), Err(20), "station {station}");
    }
    for (height, accepted) in
        [(0, false), (1, true), (50_000, true), (50_001, false), (65_537, false), (u32::MAX, false)]
    {
        for look in [Look { eye: height, ..good }, Look { object: height, ..good }] {
            assert_eq!(compare_sight(heights, 0, look), if accepted { Ok(10) } else { Err(17) }, "{look:?}");
            let filled = compare_profile(&mut random, heights, look, 50).0;
            assert_eq!(filled, if accepted { Ok(50) } else { Err(17) }, "{look:?}");
        }
    }
    let accepted = [(1, 1), (49, 49), (50, 49), (8_000, 49)].map(|(farthest, sight)| (farthest, Ok(sight)));
    let refused = [0, 8_001, 65_537, u32::MAX].map(|farthest| (farthest, Err(21)));
    for (farthest, answer) in accepted.into_iter().chain(refused) {
        let look = Look { farthest, ..good };
        assert_eq!(compare_sight(heights, 0, look), answer, "{look:?}");
        let filled = answer.map(|_| 50);
        assert_eq!(compare_profile(&mut random, heights, look, 50).0, filled, "{look:?}");
    }
    for (places, answer) in [(0, Err(14)), (49, Err(14)), (50, Ok(50)), (51, Ok(50))] {
        assert_eq!(compare_profile(&mut random, heights, good, places).0, answer, "{places} places");
    }
}

/// With more than one fault the first of 19, 20, 17, 21 decides for one station, and of 19, 17, 21, 14 for the profile.
#[test]
fn refusals_in_order() {
    let mut random = Random::new(18);
    let (mut of_station, mut of_profile) = (Tally::default(), Tally::default());
    for faults in 0..16 {
        let has = |fault: u32| faults >> fault & 1 == 1;
        let first = |order: [u32; 4], good: u32| {
            (0..).zip(order).find(|&(at, _)| has(at)).map_or(Ok(good), |(_, refusal)| Err(refusal))
        };
        let heights = vec![0; if has(0) { random.one_of(&[0, 100_002]) } else { 20 }];
        let bad = random.one_of(&[0, 50_001]);

        let (eye, object) = random.one_of(&[(bad, 1), (1, bad), (bad, bad)]);
        let look = |heights_bad: bool, distance_bad: bool| Look {
            eye: if heights_bad { eye } else { EYE },
            object: if heights_bad { object } else { OBJECT },
            farthest: if distance_bad { bad } else { 5 },
        };
        let answer = compare_sight(&heights, if has(1) { 100_002 } else { 0 }, look(has(2), has(3)));
        assert_eq!(answer, first([19, 20, 17, 21], 5));
        of_station.count(answer);

        let places = if has(3) { 19 } else { 20 };
        let (answer, _) = compare_profile(&mut random, &heights, look(has(1), has(2)), places);
        assert_eq!(answer, first([19, 17, 21, 14], 20));
        of_profile.count(answer);
    }
    assert_eq!([19, 20, 17, 21].map(|refusal| of_station.refused(refusal)), [8, 4, 2, 1]);
    assert_eq!([19, 17, 21, 14].map(|refusal| of_profile.refused(refusal)), [8, 4, 2, 1]);
}

/// At how many stations the accuracy rule was tested; where the rounding of heights changes the sight; and where the sight is above
/// the one bound and below the other.
#[derive(Debug, Default)]
struct Accuracy {
    stations: usize,
    rounding_tells: usize,
    below: usize,
    above: usize,
}

impl Accuracy {
    /// From these stations the sight of either engine lies between the sight on the exact profile with eye and object each a tenth
    /// of a millimetre lower, and with each as much higher.
    fn expect(&mut self, road: &Road, look: Look, stations: RangeInclusive<usize>) {
        let (heights, mut sights) = (heights::of_road(road), vec![0; road.length as usize + 1]);
        assert_eq!(QUICK.profile(&heights, Rising, look, &mut sights), Ok(road.length + 1));
        let exact = exact_heights(road);
        let lower = Look { eye: look.eye - 1, object: look.object - 1, ..look };
        let higher = Look { eye: look.eye + 1, object: look.object + 1, ..look };
        for i in stations {
            expect_sight(&heights, i as u32, look, Ok(sights[i].into()));
            let there = usize::from(sights[i]);
            let least = available_sight(&exact, lower, i);
            let most = available_sight(&exact, higher, i);
            assert!(least <= there && there <= most, "{least}, {there}, {most} from {i}, {look:?}, {road:?}");
            self.stations += 1;
            self.rounding_tells += usize::from(there != available_sight(&exact, look, i));
            self.below += usize::from(least < there);
            self.above += usize::from(there < most);
        }
    }
}

/// Low eyes and objects, for which the rounding of heights tells, and high ones.
fn any_heights(random: &mut Random, farthest: u32) -> Look {
    let eye = random.one_of(&[1, 2, 5, 50, 500, EYE, 50_000]);
    let object = random.one_of(&[1, 2, 5, 50, 500, OBJECT, 50_000]);
    look(eye, object, farthest)
}

#[test]
fn accuracy_rule() {
    let mut random = Random::new(19);
    let mut met = Accuracy::default();
    for _ in 0..2_000 {
        let room = random.within(2..=60);
        let road = match random.within(0..=3) {
            0 => roads::one_curve(&mut random, room),
            1 => roads::sparse(&mut random, room),
            _ => roads::run_of_crests(&mut random, room),
        };
        let road = roads::gentler(road, random.one_of(&[1, 10, 100, 100]));
        let farthest = random.one_of(&[60, 60, 20, 8_000]);
        let look = any_heights(&mut random, farthest);
        met.expect(&road, look, 0..=road.length as usize);
    }
    assert!(met.stations > 30_000 && met.rounding_tells > 200, "{met:?}");
    assert!(met.below > 1_000 && met.above > 1_000, "{met:?}");
}

/// The same on roads of more than 8,000 m, about their runs of short crests.
#[test]
fn accuracy_rule_far_out() {
    let mut random = Random::new(23);
    let mut met = Accuracy::default();
    for _ in 0..30 {
        let road = roads::far_run_of_crests(&mut random, 60);
        let road = roads::gentler(road, random.one_of(&[1, 10, 100, 100]));
        let look = any_heights(&mut random, 60);
        met.expect(&road, look, about_the_curves(&road, 20));
    }
    assert!(met.stations > 1_500 && met.rounding_tells > 10, "{met:?}");
    assert!(met.below > 50 && met.above > 50, "{met:?}");
}

/// The sight of a look-ahead that tests the line against one curve only, the nearest that does not end before the
/// station.
fn sight_over_nearest_curve<H: Height>(road: &Road, heights: &[H], look: Look, i: usize) -> usize {
    let nearest = road.curves.iter().find(|curve| curve.end() > i as i64);
    let on_nearest = |&k: &usize| nearest.is_some_and(|curve| (curve.begin()..=curve.end()).contains(&(k as i64)));
    let seen = |&j: &usize| (i + 1..j).filter(on_nearest).all(|k| clears(heights, look, i, k, j));
    ahead(heights, look, i).take_while(seen).count()
}

/// A straight or a curve of the profile: where it begins and ends, its height and grade there, and by how much the
/// grade changes over it.
struct Piece {
    begin: i64,
    end: i64,
    height: i64,
    grade: i64,
    turn: i64,
}

impl Piece {
    fn height_at(&self, station: i64) -> i64 {
        let (d, twice) = (station - self.begin, 2 * (self.end - self.begin));
        self.height + self.grade * d + (self.turn * d * d).div_euclid(twice)
    }
}

/// The straights and curves of a road, without those of length 0.
fn pieces(road: &Road) -> Vec<Piece> {
    let mut pieces = Vec::new();
    let (mut begin, mut height, mut grade) = (0, i64::from(road.start_height), i64::from(road.first_grade));
    let mut run = |end: i64, grade_out: Option<i16>| {
        let turn = grade_out.map_or(0, |grade_out| i64::from(grade_out) - grade);
        if end > begin {
            let piece = Piece { begin, end, height, grade, turn };
            height = piece.height_at(end);
            begin = end;
            pieces.push(piece);
        }
        grade += turn;
    };
    for curve in &road.curves {
        run(curve.begin(), None);
        run(curve.end(), Some(curve.grade_out));
    }
    run(road.length.into(), None);
    pieces
}

/// When a look-ahead that walks along the road turns to the next straight or curve.
#[derive(Clone, Copy)]
enum Turn {
    BeforeTheStation,
    AfterTheStation,
}

/// The heights as the look-ahead reads them. One that turns only after a station has been read is a metre late: just
/// behind a curve it still reads the curve passed.
fn heights_read(road: &Road, turn: Turn) -> Vec<i64> {
    let pieces = pieces(road);
    let mut on = 0;
    let mut heights = Vec::new();
    for station in 0..=road.length.into() {
        let behind = |piece: &Piece| station > piece.end;
        match turn {
            Turn::BeforeTheStation => {
                on += usize::from(behind(&pieces[on]));
                heights.push(pieces[on].height_at(station));
            }
            Turn::AfterTheStation => {
                heights.push(pieces[on].height_at(station));
                on += usize::from(behind(&pieces[on]));
            }
        }
    }
    heights
}

/// The fault that once was: behind a short crest the look-ahead still read the curve just passed. On this run of three
/// short crests, each touching the one before, a driver at 90 km/h needs 165 m. At station 194 the third crest hides
/// what stands beyond 159 m. A look-ahead that tests the nearest curve only says clear, and so does one that turns to
/// the next curve a metre late: it reads station 203, on the third crest, as if the second crest went on.
#[test]
fn hump_behind_a_short_crest() {
    let road = roads::three_short_crests();
    let required = required_distance(road.speed.into(), 0, marking_grade(&road)).expect("the road is accepted");
    assert_eq!(required, 165);
    let look = look(EYE, OBJECT, required);
    let station = 194;

    let heights = heights::of_road(&road);
    let stored: Vec<i32> = (0..=road.length).map(|station| stored_height(&road, station)).collect();
    assert_eq!(heights, stored);
    let whole = whole_heights(&stored);
    assert_eq!(heights_read(&road, Turn::BeforeTheStation), whole, "only the late turn is at fault");
    let late = heights_read(&road, Turn::AfterTheStation);

    // Both wrong look-aheads say clear.
    assert_eq!(sight_over_nearest_curve(&road, &whole, look, station), 165);
    assert_eq!(available_sight(&late, look, station), 165);
    // It is not clear, and only station 203 is in the way.
    assert_eq!(compare_sight(&heights, station as u32, look), Ok(159));
    assert_eq!(compare_all(&mut Random::new(20), &heights, look)[station], 159);
    for j in station + 1..=station + 165 {
        let in_the_way: Vec<usize> = (station + 1..j).filter(|&k| !clears(&whole, look, station, k, j)).collect();
        assert_eq!(in_the_way, if j <= station + 159 { vec![] } else { vec![203] }, "object at {j}");
    }
    assert!(late[203] < whole[203]);
}

/// The walk over straights and curves that the late look-ahead is a slip of gives the stored heights.
#[test]
fn turning_in_time_reads_the_stored_heights() {
    let mut random = Random::new(21);
    let mut late = 0;
    for _ in 0..2_000 {
        let room = random.within(2..=200);
        let road = roads::run_of_crests(&mut random, room);
        let whole = whole_heights(&heights::of_road(&road));
        assert_eq!(heights_read(&road, Turn::BeforeTheStation), whole, "{road:?}");
        late += usize::from(heights_read(&road, Turn::AfterTheStation) != whole);
    }
    assert!(late > 1_500, "{late} roads where turning late reads another height");
}
