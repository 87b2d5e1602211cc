//! docs/RULES.md, "Passing": the distance that a driver needs to see.

use std::array;

use exports::Manoeuvre;
use sight_tests::bare;
use sight_tests::random::Random;
use sight_tests::reference::fraction::Fraction;
use sight_tests::reference::passing::{exact_distance, passing_distance, RANGES};
use sight_tests::reference::Answer;
use sight_tests::tally::Tally;

/// What needs the least and the greatest of all distances: a great difference in speed makes it less.
const LEAST: [u32; 6] = [36, 225, 300, 200, 93, 30];
const GREATEST: [u32; 6] = [45, 241, 1_300, 100, 113, 90];

/// The combinations of the least and the greatest of the six ranges.
const EDGES: usize = 64;

fn proved_distance([t1, a, v, m, t2, d3]: [u32; 6]) -> Answer {
    bare(exports::passing_distance(Manoeuvre { t1, a, v, m, t2, d3 }))
}

/// The program's answer, which is that of the second calculation.
fn compare(six: [u32; 6]) -> Answer {
    let answer = proved_distance(six);
    assert_eq!(answer, passing_distance(six), "{six:?}");
    answer
}

/// Every one of these combinations.
fn edges() -> impl Iterator<Item = [u32; 6]> {
    (0..EDGES).map(|choice| {
        array::from_fn(|place| match choice >> place & 1 {
            0 => *RANGES[place].start(),
            _ => *RANGES[place].end(),
        })
    })
}

/// Compares a number in one place of the six with every combination of edges in the others.
fn compare_with_edges(tally: &mut Tally, place: usize, number: u32) {
    for mut six in edges() {
        six[place] = number;
        tally.count(compare(six));
    }
}

/// Worked by hand, in millimetres before rounding, cut off: the least of all, four between, and the greatest of all.
#[test]
fn cases_worked_by_hand() {
    for (six, millimetres, metres) in [
        (LEAST, 173_331, 175),
        ([36, 225, 562, 150, 93, 30], 317_452, 320),
        ([40, 230, 700, 150, 100, 55], 445_608, 450),
        ([43, 237, 845, 150, 107, 75], 583_094, 585),
        ([45, 241, 998, 150, 113, 90], 725_387, 730),
        (GREATEST, 927_540, 930),
    ] {
        assert_eq!((exact_distance(six) * Fraction::whole(1_000)).floor(), millimetres, "{six:?}");
        assert_eq!(compare(six), Ok(metres), "{six:?}");
    }
}

#[test]
fn every_combination_of_edges() {
    let distances: Vec<u32> = edges().map(|six| compare(six).expect("all six are in their ranges")).collect();
    assert_eq!(distances.len(), EDGES);
    assert_eq!((distances.iter().min(), distances.iter().max()), (Some(&175), Some(&930)));
}

/// Each number of each range, with the others at every combination of their edges.
#[test]
fn every_number_of_each_range() {
    let mut tally = Tally::default();
    for (place, range) in RANGES.into_iter().enumerate() {
        range.for_each(|number| compare_with_edges(&mut tally, place, number));
    }
    assert_eq!(tally.numbers(), (10 + 17 + 1_001 + 101 + 21 + 61) * EDGES);
}

/// The twelve numbers just outside a range, each alone, with the others at every combination of their edges.
#[test]
fn one_just_outside() {
    let mut tally = Tally::default();
    for (place, range) in RANGES.iter().enumerate() {
        for number in [range.start() - 1, range.end() + 1] {
            compare_with_edges(&mut tally, place, number);
        }
    }
    assert_eq!((tally.refused(24), tally.numbers()), (12 * EDGES, 0));
}

/// Every choice of places that are outside, one to all six of them: the number is the same.
#[test]
fn several_outside() {
    let mut random = Random::new(50);
    let mut tally = Tally::default();
    for faults in 1..1 << RANGES.len() {
        for mut six in edges() {
            for (place, range) in RANGES.iter().enumerate().filter(|(place, _)| faults >> place & 1 == 1) {
                six[place] = random.one_of(&[0, range.start() - 1, range.end() + 1, u32::MAX]);
            }
            tally.count(compare(six));
        }
    }
    assert_eq!((tally.refused(24), tally.numbers()), (63 * EDGES, 0));
}

/// Numbers that a cast to 8, 16, 24 or 31 bits or a change of sign would bring back into a range, and the edges of
/// the widths of whole numbers. One of them is in its range all the same: v = 300 + 256.
#[test]
fn far_beyond_the_ranges() {
    let mut tally = Tally::default();
    for (place, range) in RANGES.iter().enumerate() {
        for edge in [*range.start(), *range.end()] {
            let with_more_bits = [8, 16, 24, 31].map(|bits| edge + (1 << bits));
            for number in with_more_bits.into_iter().chain([edge.wrapping_neg()]) {
                compare_with_edges(&mut tally, place, number);
            }
        }
        for number in [0, 1, 0x7FFF_FFFF, 0x8000_0000, u32::MAX] {
            compare_with_edges(&mut tally, place, number);
        }
    }
    assert_eq!((tally.refused(24), tally.numbers()), ((6 * 15 - 1) * EDGES, EDGES));
    assert_eq!(compare([u32::MAX; 6]), Err(24));
    assert_eq!(compare([0; 6]), Err(24));
}

/// A difference in speed that is greater than the speed itself is out of its range, or the speed is.
#[test]
fn a_difference_over_the_speed() {
    for (v, m) in [(300, 301), (300, 1_300), (300, u32::MAX), (199, 200), (100, 101), (0, 100), (0, u32::MAX)] {
        for [t1, a, _, _, t2, d3] in edges() {
            assert_eq!(compare([t1, a, v, m, t2, d3]), Err(24), "v {v}, m {m}");
        }
    }
}

/// Each number is in its range, at or just beyond an edge of it, or anything.
#[test]
fn random_manoeuvres() {
    let mut random = Random::new(51);
    let mut tally = Tally::default();
    for _ in 0..300_000 {
        let answer = compare(RANGES.map(|range| random.in_or_out_of(range)));
        if let Ok(metres) = answer {
            assert!(metres % 5 == 0 && (175..=930).contains(&metres), "{metres}");
        }
        tally.count(answer);
    }
    assert!(tally.numbers() > 100_000, "{} numbers", tally.numbers());
    assert!(tally.refused(24) > 100_000, "{} refused", tally.refused(24));
}

/// The distance without d3 in parts of which 30,000,000 make a metre. It is for the search alone: what is found by it
/// is looked at in fractions.
fn parts([t1, a, v, m, t2]: [u32; 5]) -> u64 {
    let [t1, a, v, m, t2] = [t1, a, v, m, t2].map(u64::from);
    417 * t1 * (200 * (v - m) + a * t1) + 139_000 * v * t2
}

/// Every manoeuvre whose distance without d3 is a whole number of metres, with that number. In parts all terms but
/// 417 a t1² are multiples of 200, as the metre is.
fn of_whole_metres() -> Vec<([u32; 5], u32)> {
    let [t1s, accelerations, speeds, differences, t2s, _] = RANGES;
    let mut found = Vec::new();
    for t1 in t1s {
        for a in accelerations.clone().filter(|a| a * t1 * t1 % 200 == 0) {
            for v in speeds.clone() {
                for m in differences.clone() {
                    let all = t2s.clone().map(|t2| [t1, a, v, m, t2]);
                    let whole = all.filter(|&five| parts(five) % 30_000_000 == 0);
                    found.extend(whole.map(|five| (five, (parts(five) / 30_000_000) as u32)));
                }
            }
        }
    }
    found
}

/// A distance that is a multiple of 5 m before it is rounded stays; one of another whole number of metres is rounded
/// up.
#[test]
fn exact_multiples_stay() {
    let found = of_whole_metres();
    assert_eq!(found.len(), 1_260);
    let (mut stay, mut rounded) = (0, 0);
    for ([t1, a, v, m, t2], metres) in found {
        for d3 in 30..=90 {
            let (six, exact) = ([t1, a, v, m, t2, d3], metres + d3);
            assert_eq!(exact_distance(six), Fraction::from(exact), "{six:?}");
            assert_eq!(compare(six), Ok(exact.next_multiple_of(5)), "{six:?}");
            *(if exact % 5 == 0 { &mut stay } else { &mut rounded }) += 1;
        }
    }
    assert_eq!((stay, rounded), (15_423, 61_437));
}

/// 275 m and a 15,000,000th of a metre without d3, and 284 m less a 7,500,000th: with a d3 that makes the whole
/// metres a multiple of 5 m, the one is rounded up to the next and the other to this.
#[test]
fn just_beside_a_multiple() {
    for d3 in (30..=90).step_by(5) {
        let six = [41, 226, 494, 196, 103, d3];
        assert_eq!(exact_distance(six), Fraction::from(275 + d3) + Fraction::new(1, 15_000_000));
        assert_eq!(compare(six), Ok(280 + d3));
    }
    for d3 in (31..=86).step_by(5) {
        let six = [38, 227, 476, 169, 112, d3];
        assert_eq!(exact_distance(six), Fraction::from(284 + d3) - Fraction::new(1, 7_500_000));
        assert_eq!(compare(six), Ok(284 + d3));
    }
}
