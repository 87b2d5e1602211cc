//! docs/RULES.md, "Trying another length": the marks of a road as it is and with another length of one curve, and the file of
//! the changed road.

use sight_tests::bare;
use sight_tests::lent;
use sight_tests::random::Random;
use sight_tests::reference::file::{bytes, read, read_short};
use sight_tests::reference::marks::runs;
use sight_tests::reference::preview::{change_length, changed, preview};
use sight_tests::reference::road::{Curve, Road, GREATEST_SHORT_ROAD};
use sight_tests::reference::Answer;
use sight_tests::roads::{self, in_version};
use sight_tests::roads::{EXAMPLE, EXAMPLE_VERSION_2, LONG_EXAMPLE, REFUSALS, VERSIONS};
use sight_tests::tally::Tally;
use vcp::{DECISION_LACKING, STOPPING_LACKING, STOPPING_NOT_JUDGED};

/// What is tried: a length in metres of the curve at a place, counted from 0.
#[derive(Clone, Copy, Debug)]
struct Trial {
    place: u32,
    length: u32,
}

fn curve(pvi: u32, length: u16, grade_out: i16) -> Curve {
    Curve { pvi, length, grade_out }
}

/// Crests and sags in turn, so many, with PVIs so many metres apart.
fn in_turn(curves: u32, apart: u32, length: u16) -> Vec<Curve> {
    let grade_out = |place: u32| if place % 2 == 0 { -1_500 } else { 1_500 };
    (0..curves).map(|place| curve(apart / 2 + apart * place, length, grade_out(place))).collect()
}

/// An accepted road of 100 m at 20 km/h.
fn road(first_grade: i16, curves: &[Curve]) -> Road {
    Road { version: 1, speed: 20, purpose: 1, length: 100, start_height: 0, first_grade, curves: curves.to_vec() }
}

/// The program fills two lists of so many places just as the second calculation does, and the rest stays. So does the file.
fn compare(random: &mut Random, file: &[u8], trial: Trial, places: [usize; 2]) -> (Answer, [Vec<u8>; 2]) {
    let Trial { place, length } = trial;
    let lists = places.map(|places| random.list(places, |bits| bits as u8));
    let read_file = file.to_vec();
    let compared = lent::compare_lists(
        lists.each_ref().map(Vec::as_slice),
        |[before, after]| bare(exports::preview(&read_file, place, length, before, after)),
        |[before, after]| preview(file, place, length, before, after),
        format_args!("{trial:?}, {file:02X?}"),
    );
    assert_eq!(read_file, file, "the file is what it was: {trial:?}");
    compared
}

/// The program writes the changed road into a buffer of so many bytes just as the second calculation does, and the rest stays.
fn compare_changing(random: &mut Random, file: &[u8], trial: Trial, places: usize) -> (Answer, Vec<u8>) {
    let Trial { place, length } = trial;
    let read_file = file.to_vec();
    let compared = lent::compare(
        &random.list(places, |bits| bits as u8),
        |buffer| bare(exports::change_length(&read_file, place, length, buffer)),
        |buffer| change_length(file, place, length, buffer),
        format_args!("{trial:?}, {file:02X?}"),
    );
    assert_eq!(read_file, file, "the file is what it was: {trial:?}");
    compared
}

/// The marks that the van writes for an accepted file.
fn marks(file: &[u8]) -> Vec<u8> {
    let mut marks = vec![0; vcp::MOST_STATIONS];
    let stations = vcp::mark_road_file(file, &mut marks).expect("the road is accepted");
    marks.truncate(stations as usize);
    marks
}

/// The file of an accepted trial, compared in buffers that are one byte too short, empty, longer, and just long enough. It is
/// read as the same road but for the one length, and changed back it is the first file.
fn changed_file(random: &mut Random, file: &[u8], trial: Trial) -> Vec<u8> {
    let needed = file.len();
    for places in [needed - 1, 0] {
        assert_eq!(compare_changing(random, file, trial, places).0, Err(14));
    }
    let all = Ok(needed as u32);
    assert_eq!(compare_changing(random, file, trial, needed + 3).0, all);
    let (answer, copy) = compare_changing(random, file, trial, needed);
    assert_eq!(answer, all);
    let mut road = read(file).expect("the road is accepted");
    let curve = &mut road.curves[trial.place as usize];
    let back = Trial { length: curve.length.into(), ..trial };
    curve.length = trial.length as u16;
    assert_eq!(read(&copy), Ok(road), "{trial:?}");
    assert_eq!(compare_changing(random, &copy, back, needed), (all, file.to_vec()), "{trial:?}, and back");
    copy
}

/// Compares an accepted trial in lists of which the first, the second or both are too short, and in lists that are long
/// enough: it is to change a copy, to mark both and to count. Answers the count and the marks.
fn compare_accepted(random: &mut Random, file: &[u8], trial: Trial) -> (Answer, [Vec<u8>; 2]) {
    let copy = changed_file(random, file, trial);
    let expected = [marks(file), marks(&copy)];
    let stations = expected[0].len();
    let [one, other] = [0; 2].map(|_| stations + random.within(0..=3) as usize);
    let short = stations - 1;
    for places in [[short, other], [one, short], [short, short], [0, other], [one, 0]] {
        assert_eq!(compare(random, file, trial, places).0, Err(14), "{places:?} places");
    }
    let (answer, mut lists) = compare(random, file, trial, [one, other]);
    lists.iter_mut().for_each(|list| list.truncate(stations));
    assert_eq!(lists, expected, "{trial:?}, {file:02X?}");
    let differing = lists[0].iter().zip(&lists[1]).filter(|(before, after)| before != after).count();
    assert_eq!(answer, Ok(differing as u32), "{trial:?}, {file:02X?}");
    (answer, lists)
}

/// Compares a refused preview in lists of any length, which does not decide.
fn refused_preview(random: &mut Random, file: &[u8], trial: Trial) -> Answer {
    let places = [0; 2].map(|_| random.one_of(&[0, 1, 20, 300, 8_001]));
    compare(random, file, trial, places).0
}

/// The same of a refused change of a file, in a buffer.
fn refused_change(random: &mut Random, file: &[u8], trial: Trial) -> Answer {
    let places = random.one_of(&[0, 15, file.len(), 275]);
    compare_changing(random, file, trial, places).0
}

/// Compares a trial that both refuse alike.
fn compare_refused(random: &mut Random, file: &[u8], trial: Trial) -> Answer {
    let answer = refused_preview(random, file, trial);
    assert_eq!(refused_change(random, file, trial), answer, "{trial:?}, {file:02X?}");
    answer
}

/// The answers to trials, and what they meet.
#[derive(Default)]
struct Met {
    tally: Tally,
    /// Accepted trials of another length that change no mark.
    without_effect: usize,
    /// Stations where sight lacks before and not after, and those where it lacks after and not before.
    cleared: usize,
    hidden: usize,
    /// Trials that are refused by nothing but the begin of the next curve.
    next_decides: usize,
}

impl Met {
    fn count_stations(&mut self, [before, after]: &[Vec<u8>; 2]) {
        let lacking = STOPPING_LACKING | DECISION_LACKING;
        for (before, after) in before.iter().zip(after) {
            self.cleared += usize::from(before & !after & lacking != 0);
            self.hidden += usize::from(after & !before & lacking != 0);
            assert_eq!((before ^ after) >> 3, 0, "whether a station is judged depends on no curve's length");
        }
    }

    fn expect_accepted(&self, least: usize, without_effect: usize) {
        let accepted = self.tally.numbers();
        assert!(accepted > least, "{accepted} accepted");
        assert!(self.without_effect > without_effect, "{} of another length change no mark", self.without_effect);
    }

    fn expect_stations(&self, cleared: usize, hidden: usize) {
        assert!(
            self.cleared > cleared && self.hidden > hidden,
            "{} stations cleared, {} hidden",
            self.cleared,
            self.hidden
        );
    }

    fn expect_refused(&self, least: &[(u32, usize)]) {
        for &(refusal, least) in least {
            assert!(self.tally.refused(refusal) > least, "{} refused {refusal}", self.tally.refused(refusal));
        }
    }
}

/// Compares a trial of an accepted road, and counts it.
fn compare_and_count(random: &mut Random, met: &mut Met, road: &Road, trial: Trial) -> Answer {
    let file = bytes(road);
    let answer = if changed(GREATEST_SHORT_ROAD, road, trial.place, trial.length).is_ok() {
        let (answer, lists) = compare_accepted(random, &file, trial);
        met.count_stations(&lists);
        answer
    } else {
        compare_refused(random, &file, trial)
    };
    met.tally.count(answer);
    answer
}

/// Lengths to try on the curve at a place: its own, the even ones next to it, none, one that has room, the longest that has,
/// the next one, and two that no curve has.
fn lengths(random: &mut Random, road: &Road, place: usize) -> [u32; 9] {
    let own = u32::from(road.curves[place].length);
    let longest = roads::longest_length(road, place);
    let with_room = 2 * random.within(0..=longest / 2);
    let never = [1, own + 1, longest + 1, 2_001, 2_002, 65_535, 65_536, 65_536 + own, 1 << 31 | own, u32::MAX];
    let never = random.one_of(&never);
    [own, own.saturating_sub(2), own + 2, 0, with_room, longest, longest + 2, 65_536 + longest, never]
}

/// A curve can have each even length for which there is room, and 0 where its grades differ by 50 at most.
fn acceptable(road: &Road, place: usize, length: u32) -> bool {
    let turn = roads::grade_in(road, place).abs_diff(road.curves[place].grade_out);
    length % 2 == 0 && length <= roads::longest_length(road, place) && (length > 0 || turn <= 50)
}

/// With this length the curve at a place is where it may be, so that a refusal is the next curve's.
fn well_placed(road: &Road, place: usize, length: u32) -> bool {
    let curve = Curve { length: length as u16, ..road.curves[place] };
    roads::end_before(road, place) <= curve.begin() && curve.end() <= i64::from(road.length)
}

/// Tries lengths on the curve at a place.
fn try_place(random: &mut Random, met: &mut Met, road: &Road, place: usize) {
    for length in lengths(random, road, place) {
        let answer = compare_and_count(random, met, road, Trial { place: place as u32, length });
        assert_eq!(answer.is_ok(), acceptable(road, place, length), "place {place}, length {length}, {road:?}");
        let own = length == u32::from(road.curves[place].length);
        assert!(!own || answer == Ok(0), "{answer:?} with its own length: place {place}, {road:?}");
        met.without_effect += usize::from(!own && answer == Ok(0));
        met.next_decides += usize::from(answer == Err(13) && well_placed(road, place, length));
    }
}

/// Runs of short crests and sags close behind each other come first, with a straight behind them so that they are judged: each
/// place, and lengths that just touch a neighbour or are a step too long for it.
#[test]
fn random_runs_of_short_crests() {
    let mut random = Random::new(91);
    let mut met = Met::default();
    for _ in 0..400 {
        let room = random.within(2..=60);
        let mut road = roads::steeper(roads::run_of_crests(&mut random, room));
        road.length += random.within(0..=40);
        road.speed = random.within(20..=30) as u8;
        for place in 0..road.curves.len() {
            try_place(&mut random, &mut met, &road, place);
        }
    }
    met.expect_accepted(8_000, 1_500);
    met.expect_stations(400, 300);
    met.expect_refused(&[(11, 4_000), (12, 300), (13, 3_000), (25, 3_000)]);
    assert!(met.next_decides > 1_000, "{} refused by the next curve alone", met.next_decides);
}

#[test]
fn random_roads_of_every_kind() {
    let mut random = Random::new(92);
    let mut met = Met::default();
    for round in 0..240 {
        let mut road = roads::any_road(&mut random);
        if round % 2 == 0 {
            road = roads::steeper(road);
        }
        road.speed = random.within(20..=30) as u8;
        let curves = road.curves.len() as u32;
        if let Some(last) = curves.checked_sub(1) {
            let place = random.within(0..=last) as usize;
            try_place(&mut random, &mut met, &road, place);
        }
        let place = curves + random.of_any_size(u32::MAX - 32) - 1;
        let length = random.of_any_size(3_000) - 1;
        assert_eq!(compare_and_count(&mut random, &mut met, &road, Trial { place, length }), Err(26));
    }
    met.expect_accepted(600, 150);
    met.expect_stations(50, 50);
    met.expect_refused(&[(11, 300), (12, 100), (13, 150), (25, 150), (26, 239)]);
}

/// Curves far out, behind stations that two bytes do not hold: the file of the changed road is written, and the preview of such a
/// road is refused 8, whatever is tried.
#[test]
fn curves_far_out() {
    let mut random = Random::new(109);
    let mut tally = Tally::default();
    for _ in 0..200 {
        let room = random.within(2..=150);
        let road = roads::far_run_of_crests(&mut random, room);
        let file = bytes(&road);
        for place in 0..road.curves.len() {
            for length in lengths(&mut random, &road, place) {
                let trial = Trial { place: place as u32, length };
                let accepted = acceptable(&road, place, length);
                let answer = match accepted {
                    true => Ok(changed_file(&mut random, &file, trial).len() as u32),
                    false => refused_change(&mut random, &file, trial),
                };
                assert_eq!(answer.is_ok(), accepted, "{trial:?}, {road:?}");
                tally.count(answer);
                assert_eq!(refused_preview(&mut random, &file, trial), Err(8), "{trial:?}, {road:?}");
            }
        }
        let beyond = Trial { place: road.curves.len() as u32, length: 2 };
        assert_eq!(refused_change(&mut random, &file, beyond), Err(26), "{road:?}");
    }
    assert!(tally.numbers() > 5_000, "{} accepted", tally.numbers());
    for (refusal, least) in [(11, 2_000), (12, 5), (13, 2_000), (25, 2_000)] {
        assert!(tally.refused(refusal) > least, "{} refused {refusal}", tally.refused(refusal));
    }
}

/// The curves of the example of 100 km. With 200 m the crest reaches the road's end, 100 m behind its PVI; the sag may be 2,000 m long.
#[test]
fn example_of_100_km() {
    let mut random = Random::new(110);
    for (place, length, expected) in [
        (0, 2_000, None),
        (0, 2_002, Some(11)),
        (0, 0, Some(25)),
        (1, 200, None),
        (1, 202, Some(12)),
        (1, 65_536 + 18, Some(11)),
        (2, 18, Some(26)),
    ] {
        let trial = Trial { place, length };
        assert_eq!(refused_preview(&mut random, &LONG_EXAMPLE, trial), Err(8), "{trial:?}");
        match expected {
            None => drop(changed_file(&mut random, &LONG_EXAMPLE, trial)),
            Some(refusal) => assert_eq!(refused_change(&mut random, &LONG_EXAMPLE, trial), Err(refusal), "{trial:?}"),
        }
    }
}

/// The preview refuses a road over 8,000 m by 8, in the place where 8 is tested: a fault that is tested before decides, and one
/// that is tested behind it does not, nor does what is tried. The file of the changed road is had of the longer road too.
#[test]
fn roads_that_are_too_long() {
    let mut random = Random::new(111);
    for roads::LongFile { file, short, read } in roads::long_files(&mut random) {
        for place in [0, 31, 32, u32::MAX] {
            let trial = Trial { place, length: random.one_of(&[0, 2, 3, 40, 2_002, u32::MAX]) };
            assert_eq!(refused_preview(&mut random, &file, trial), Err(short), "{trial:?}, {file:02X?}");
            match read {
                Some(refusal) => assert_eq!(refused_change(&mut random, &file, trial), Err(refusal), "{file:02X?}"),
                None => drop(compare_changing(&mut random, &file, trial, file.len())),
            }
        }
    }
}

/// The same road in either version: the same is refused, and as many stations differ.
#[test]
fn a_road_in_both_versions() {
    let mut random = Random::new(112);
    let mut met = Met::default();
    for _ in 0..40 {
        let mut road = roads::steeper(roads::run_of_crests(&mut random, 60));
        road.length += 40;
        road.speed = random.within(20..=30) as u8;
        for place in 0..road.curves.len() {
            let length = roads::longest_length(&road, place) + random.one_of(&[0, 1, 2]);
            let trial = Trial { place: place as u32, length };
            let [one, other] =
                VERSIONS.map(|version| compare_and_count(&mut random, &mut met, &in_version(version, &road), trial));
            assert_eq!(one, other, "{trial:?}, {road:?}");
        }
    }
    assert!(met.tally.numbers() > 200, "{} accepted", met.tally.numbers());
    met.expect_stations(50, 1);
}

/// One crest that gets longer, so that stations gain sight, or shorter, so that they lose it, in steps of 2 m.
#[test]
fn longer_and_shorter_crests() {
    let mut random = Random::new(93);
    let mut met = Met::default();
    for _ in 0..20 {
        let drop = random.signed_within(1_000..=3_000);
        let first_grade = random.signed_within(drop - 1_500..=1_500) as i16;
        let mut road = roads::one_crest(first_grade, drop as i16, 20, 50);
        road.speed = random.within(20..=25) as u8;
        for length in (0..=122).step_by(2) {
            let answer = compare_and_count(&mut random, &mut met, &road, Trial { place: 0, length });
            assert_eq!(answer.is_ok(), acceptable(&road, 0, length), "length {length}, {road:?}");
        }
    }
    met.expect_stations(5_000, 500);
    met.expect_refused(&[(12, 19), (25, 19)]);
}

/// A crest just before the road's end, which hides it from station 75: the last one that is judged, and the last that differs.
#[test]
fn last_judged_station() {
    let road = road(1_000, &[curve(88, 2, -1_000)]);
    let (_, [before, after]) = compare_accepted(&mut Random::new(106), &bytes(&road), Trial { place: 0, length: 24 });
    let judged = before.iter().take_while(|&mark| mark & STOPPING_NOT_JUDGED == 0).count();
    assert_eq!((judged, before[75] & STOPPING_LACKING, after[75]), (76, STOPPING_LACKING, 0));
}

/// A crest of 2 m hides what is 305 m ahead from more stations than a byte counts, and one of 1,200 m from none.
#[test]
fn many_stations_differ() {
    let road = Road { speed: 75, purpose: 5, ..roads::one_crest(400, 800, 2, 599) };
    let trial = Trial { place: 0, length: 1_200 };
    let (answer, lists) = compare_accepted(&mut Random::new(107), &bytes(&road), trial);
    assert_eq!(answer, Ok(284));
    assert_eq!(lists.map(|marks| runs(&marks, 1)), [vec![[303, 586]], vec![]]);
}

/// 32 crests and sags in turn, each of 10 m, over a road of 8,000 m. With 250 m the outermost reach an end of the road, and with
/// 490 m the others touch both neighbours. A road of one curve has room for one of 2,000 m.
#[test]
fn longest_roads() {
    let mut random = Random::new(94);
    let mut met = Met::default();
    let full = Road { length: 8_000, ..road(1_500, &in_turn(32, 250, 10)) };
    let single = Road { length: 8_000, ..road(1_500, &[curve(7_000, 4, -1_500)]) };
    for (road, place, longest, refusal) in
        [(&full, 0, 250, 12), (&full, 14, 490, 13), (&full, 31, 250, 12), (&single, 0, 2_000, 11)]
    {
        for (length, accepted) in [(2, true), (longest, true), (longest + 2, false), (65_536 + longest, false)] {
            let refusal = if length > 65_535 { 11 } else { refusal };
            let answer = compare_and_count(&mut random, &mut met, road, Trial { place, length });
            assert_eq!(answer.err(), (!accepted).then_some(refusal), "place {place}, length {length}");
        }
    }
    try_place(&mut random, &mut met, &single, 0);
    met.expect_stations(30, 1);
}

/// The crest of 2 m among the rules' cases: at how many of 41 stations the marks differ, and what is refused.
#[test]
fn cases_of_the_rules() {
    let mut random = Random::new(108);
    let file = bytes(&Road { length: 40, ..road(900, &[curve(20, 2, -900)]) });
    for (length, differing) in [(10, 4), (20, 12), (2, 0)] {
        let (answer, _) = compare_accepted(&mut random, &file, Trial { place: 0, length });
        assert_eq!(answer, Ok(differing), "length {length}");
    }
    for (place, places, refusal) in [(0, [41, 40], 14), (0, [40, 41], 14), (1, [40, 40], 26)] {
        let (answer, _) = compare(&mut random, &file, Trial { place, length: 10 }, places);
        assert_eq!(answer, Err(refusal), "place {place}, {places:?} places");
    }
}

/// The numbers of each curve of the example: its least length, the greatest with which it touches a neighbour, and the greatest
/// within the road.
const EXAMPLE_LENGTHS: [[u32; 3]; 4] = [[2, 50, 200], [2, 50, 260], [2, 50, 280], [0, 70, 200]];

/// Each length of each curve of the example: refused 25 as a sharp break, 13 from the touching one on, 12 beyond the road, and
/// 11 where it is odd or over 2,000.
#[test]
fn each_length_of_the_example() {
    let mut random = Random::new(96);
    let mut met = Met::default();
    let road = read(&EXAMPLE).expect("the road is accepted");
    for (place, [least, touching, within]) in (0..).zip(EXAMPLE_LENGTHS) {
        for length in (0..=2_100).chain(65_530..=65_620).chain([1 << 31, u32::MAX]) {
            let expected = match length {
                _ if length % 2 == 1 || length > 2_000 => Some(11),
                _ if length > within => Some(12),
                _ if length > touching => Some(13),
                _ if length < least => Some(25),
                _ => None,
            };
            let answer = compare_and_count(&mut random, &mut met, &road, Trial { place, length });
            assert_eq!(answer.err(), expected, "place {place}, length {length}");
        }
    }
    assert_eq!(met.tally.numbers(), 25 + 25 + 25 + 36);
    met.expect_stations(400, 10);
}

/// At how many stations the example's marks differ. The grades of its first three curves differ by 1,200, those of the break by
/// 50: that one alone may have the length 0.
#[test]
fn example_of_the_rules() {
    let mut random = Random::new(97);
    let trials: [(u32, &[(u32, Answer)]); 5] = [
        (0, &[(10, Ok(0)), (2, Ok(3)), (40, Ok(21)), (48, Ok(35)), (50, Ok(37)), (52, Err(13)), (0, Err(25))]),
        (1, &[(10, Ok(0)), (2, Ok(0)), (40, Ok(4)), (50, Ok(7)), (52, Err(13)), (0, Err(25)), (11, Err(11))]),
        (2, &[(10, Ok(0)), (2, Ok(5)), (12, Ok(1)), (50, Ok(35)), (52, Err(13)), (0, Err(25)), (2_002, Err(11))]),
        (3, &[(0, Ok(0)), (2, Ok(0)), (70, Ok(0)), (72, Err(13)), (200, Err(13)), (202, Err(12)), (65_538, Err(11))]),
        (4, &[(0, Err(26)), (2, Err(26)), (11, Err(26)), (2_002, Err(26)), (u32::MAX, Err(26))]),
    ];
    for (place, answers) in trials {
        for &(length, expected) in answers {
            let answer = try_example(&mut random, Trial { place, length }, [301; 2]);
            assert_eq!(answer, expected, "place {place}, length {length}");
        }
    }
}

/// The first crest of the example with 48 m. By the crest's rule it takes 46 m to see 50 m over it, and 66 m to see 60 m: nothing
/// lacks stopping sight there any more. D gives up 48 to 51 and 76 to 87, S becomes R from 58 to 75, and 114 is new.
#[test]
fn longer_crest_of_the_example() {
    let (answer, [before, after]) = compare_accepted(&mut Random::new(98), &EXAMPLE, Trial { place: 0, length: 48 });
    assert_eq!(answer, Ok(4 + 12 + 18 + 1));
    let zones = |marks: &[u8]| [0, 1, 2].map(|bit| runs(marks, bit));
    let [stopping, decision, reduced] = zones(&before);
    assert_eq!((stopping, decision), (vec![[58, 87], [123, 148]], vec![[48, 87], [115, 149]]));
    assert_eq!(reduced, [[48, 57], [115, 122], [149, 149]]);
    let [stopping, decision, reduced] = zones(&after);
    assert_eq!((stopping, decision), (vec![[123, 148]], vec![[52, 75], [114, 149]]));
    assert_eq!(reduced, [[52, 75], [114, 122], [149, 149]]);
}

/// Lists of any two lengths: 14 where either is short, and then both are what they were.
#[test]
fn lists_of_any_length() {
    let mut random = Random::new(99);
    let lengths = [0, 1, 150, 299, 300, 301, 302, 303, 450, 8_001, 9_000];
    for one in lengths {
        for other in lengths {
            let (answer, _) = compare(&mut random, &EXAMPLE, Trial { place: 0, length: 48 }, [one, other]);
            assert_eq!(answer, if one.min(other) < 301 { Err(14) } else { Ok(35) }, "{one} and {other} places");
        }
    }
    for places in 0..=60 {
        let (answer, _) = compare_changing(&mut random, &EXAMPLE, Trial { place: 0, length: 48 }, places);
        assert_eq!(answer, if places < 40 { Err(14) } else { Ok(40) }, "{places} bytes");
    }
}

/// The second of the example's curves, in a trial that is accepted, and such as are refused by these numbers.
const TRIALS: [(u32, Option<u32>); 7] =
    [(40, None), (41, Some(11)), (2_002, Some(11)), (65_576, Some(11)), (262, Some(12)), (52, Some(13)), (0, Some(25))];

/// A trial of the example, in either version, in lists of so many places, and in a buffer that is too short where one of the lists
/// is.
fn try_example(random: &mut Random, trial: Trial, places: [usize; 2]) -> Answer {
    let [one, other] = [&EXAMPLE[..], &EXAMPLE_VERSION_2].map(|file| {
        let (answer, _) = compare(random, file, trial, places);
        let buffer = if places.iter().any(|&places| places < 301) { file.len() - 1 } else { file.len() };
        let (changing, _) = compare_changing(random, file, trial, buffer);
        assert_eq!(changing.err(), answer.err(), "{trial:?}, {places:?} places");
        answer
    });
    assert_eq!(one, other, "{trial:?}, {places:?} places");
    one
}

/// With more than one fault the first of 26, the changed road's and 14 decides.
#[test]
fn refusals_in_order() {
    let mut random = Random::new(95);
    let mut tally = Tally::default();
    for (place, beyond) in [(1, false), (4, true), (31, true), (257, true), (u32::MAX, true)] {
        for (length, refusal) in TRIALS {
            for places in [[301, 301], [300, 301], [301, 300], [300, 300], [0, 301], [301, 0], [0, 0]] {
                let too_short = places.iter().any(|&places| places < 301);
                let faults = [beyond.then_some(26), refusal, too_short.then_some(14)];
                let expected = faults.into_iter().flatten().next().map_or(Ok(4), Err);
                let answer = try_example(&mut random, Trial { place, length }, places);
                assert_eq!(answer, expected, "place {place}, length {length}, {places:?} places");
                tally.count(answer);
            }
        }
    }
    let refused = [26, 11, 12, 13, 25, 14].map(|refusal| tally.refused(refusal));
    assert_eq!(refused, [4 * 7 * 7, 3 * 7, 7, 7, 7, 6]);
    assert_eq!(tally.numbers(), 1);
}

/// Each place from the number of curves on is refused 26, also one that a byte or two bytes would take for a curve's. The last
/// place before is accepted.
#[test]
fn places_beyond_the_last_curve() {
    let mut random = Random::new(100);
    let mut met = Met::default();
    for curves in 0..=32 {
        let road = road(1_500, &in_turn(curves, 3, 2));
        if let Some(place) = curves.checked_sub(1) {
            assert_eq!(compare_and_count(&mut random, &mut met, &road, Trial { place, length: 2 }), Ok(0));
        }
        let beyond = [curves, curves + 1, 31, 32, 33, 63, 64, 255, 256, 65_536, 1 << 31, u32::MAX - 31, u32::MAX];
        for place in beyond.into_iter().filter(|&place| place >= curves) {
            for length in [2, 0, 3, 200, 2_002, 65_538, u32::MAX] {
                let answer = compare_and_count(&mut random, &mut met, &road, Trial { place, length });
                assert_eq!(answer, Err(26), "place {place} of {curves}, length {length}");
            }
        }
    }
    met.expect_refused(&[(26, 2_900)]);
}

/// Lengths that have just room and that have not, also where breaks share a station: there is a break at 0, two are at 40, a
/// curve is from 50 to 60, a break is at 75, and one at the end.
#[test]
fn lengths_at_each_edge() {
    let mut random = Random::new(101);
    let breaks = [curve(0, 0, 350), curve(40, 0, 400), curve(40, 0, 350)];
    let others = [curve(55, 10, 300), curve(75, 0, 299), curve(100, 0, 349)];
    let road = road(300, &[breaks, others].concat());
    let trials: [&[(u32, Option<u32>)]; 6] = [
        &[(0, None), (2, Some(12))],
        &[(0, None), (2, Some(13)), (80, Some(13)), (82, Some(12))],
        &[(0, None), (2, Some(13)), (80, Some(13)), (82, Some(12))],
        &[(0, None), (2, None), (30, None), (32, Some(13)), (40, Some(13)), (90, Some(13)), (92, Some(12))],
        &[(0, None), (30, None), (32, Some(13)), (50, Some(13)), (52, Some(12))],
        &[(0, None), (2, Some(12))],
    ];
    for (place, trials) in (0..).zip(trials) {
        for &(length, expected) in trials {
            let answer = compare_and_count(&mut random, &mut Met::default(), &road, Trial { place, length });
            assert_eq!(answer.err(), expected, "place {place}, length {length}");
        }
    }
}

/// A curve may become a break where its grades differ by 50 at most. The grade in is the road's first, or that out of the curve
/// before.
#[test]
fn curves_that_become_breaks() {
    let mut random = Random::new(105);
    for (grade, expected) in [(250, None), (350, None), (249, Some(25)), (351, Some(25)), (-1_500, Some(25))] {
        let last = curve(50, 20, grade);
        for road in
            [road(300, &[last]), road(grade, &[curve(20, 4, 300), last]), road(300, &[last, curve(60, 0, grade)])]
        {
            let place = road.curves.iter().position(|&curve| curve == last).expect("the curve is there") as u32;
            let answer = compare_and_count(&mut random, &mut Met::default(), &road, Trial { place, length: 0 });
            assert_eq!(answer.err(), expected, "place {place}, {road:?}");
        }
    }
}

/// A refused file is refused as reading refuses it, whatever is tried and lent.
#[test]
fn refused_files() {
    let mut random = Random::new(102);
    let mut tally = Tally::default();
    for _ in 0..12_000 {
        let file = roads::doubtful_file(&mut random);
        // A good one is left to the other tests.
        let Err(refusal) = read_short(&file) else { continue };
        let place = random.one_of(&[0, 0, 1, 31, 32, 256, u32::MAX]);
        let length = random.one_of(&[0, 2, 3, 40, 2_002, 65_538, u32::MAX]);
        let trial = Trial { place, length };
        let answer = refused_preview(&mut random, &file, trial);
        assert_eq!(answer, Err(refusal), "{file:02X?}");
        tally.count(answer);
        if let Err(refusal) = read(&file) {
            assert_eq!(refused_change(&mut random, &file, trial), Err(refusal), "{file:02X?}");
        }
    }
    for refusal in REFUSALS {
        assert!(tally.refused(refusal) > 200, "{} refused {refusal}", tally.refused(refusal));
    }
}

/// A road that is refused by a curve's length is refused all the same where another length of that curve would be accepted.
#[test]
fn refused_roads_are_not_mended() {
    let mut random = Random::new(103);
    for (place, length, refusal) in [(1, 11, 11), (2, 2_002, 11), (0, 202, 12), (1, 52, 13), (0, 52, 13), (2, 0, 25)] {
        let mut road = read(&EXAMPLE).expect("the road is accepted");
        road.curves[place].length = length;
        for place in [place as u32, 3, 4] {
            let answer = compare_refused(&mut random, &bytes(&road), Trial { place, length: 10 });
            assert_eq!(answer, Err(refusal), "place {place}, length {length}");
        }
    }
}

/// A road without curves has no place at all.
#[test]
fn roads_without_curves() {
    let mut random = Random::new(104);
    for _ in 0..300 {
        let road = Road { curves: vec![], ..roads::any_road(&mut random) };
        let place = random.one_of(&[0, 1, 31, 255, u32::MAX]);
        let length = random.one_of(&[0, 1, 2, 2_000, 2_002, u32::MAX]);
        assert_eq!(compare_refused(&mut random, &bytes(&road), Trial { place, length }), Err(26), "{road:?}");
    }
}
