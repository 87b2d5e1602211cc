//! docs/RULES.md, "Distances a driver needs".

use sight_tests::bare;
use sight_tests::reference::distances::{exact_distance, required_distance, up_to_five};
use sight_tests::reference::fraction::Fraction;
use sight_tests::reference::Answer;
use sight_tests::tally::Tally;

const STOPPING: u32 = 0;
const LEVEL: i32 = 0;

/// Source document 002, table 1: design speed in km/h and design stopping sight distance in metres.
const PRINTED_BY_AASHTO: [(u32, u32); 12] = [
    (20, 20),
    (30, 35),
    (40, 50),
    (50, 65),
    (60, 85),
    (70, 105),
    (80, 130),
    (90, 160),
    (100, 185),
    (110, 220),
    (120, 250),
    (130, 285),
];

/// The columns of table 2: downgrades of 3, 6 and 9 %, then upgrades.
const PRINTED_GRADES: [i32; 6] = [-300, -600, -900, 300, 600, 900];

/// Source document 002, table 2: design speed in km/h and stopping sight distances on these grades in metres.
const PRINTED_ON_GRADES: [(u32, [u32; 6]); 12] = [
    (20, [20, 20, 20, 19, 18, 18]),
    (30, [32, 35, 35, 31, 30, 29]),
    (40, [50, 50, 53, 45, 44, 43]),
    (50, [66, 70, 74, 61, 59, 58]),
    (60, [87, 92, 97, 80, 77, 75]),
    (70, [110, 116, 124, 100, 97, 93]),
    (80, [136, 144, 154, 123, 118, 114]),
    (90, [164, 174, 187, 148, 141, 136]),
    (100, [194, 207, 223, 174, 167, 160]),
    (110, [227, 243, 262, 203, 194, 186]),
    (120, [263, 281, 304, 234, 223, 214]),
    (130, [302, 323, 350, 267, 254, 243]),
];

/// Source document 002, table 3: design speed in km/h and the sight distances of the decisions A to E in metres.
const PRINTED_DECISIONS: [(u32, [u32; 5]); 9] = [
    (50, [70, 155, 145, 170, 195]),
    (60, [95, 195, 170, 205, 235]),
    (70, [115, 235, 200, 235, 275]),
    (80, [140, 280, 230, 270, 315]),
    (90, [170, 325, 270, 315, 360]),
    (100, [200, 370, 315, 355, 400]),
    (110, [235, 420, 330, 380, 430]),
    (120, [265, 470, 360, 415, 470]),
    (130, [305, 525, 390, 450, 510]),
];

/// The figures of the decisions A and B that are less than the van's: speed, purpose, and the distance by the equation in hundredths of
/// a metre, cut off. They are rounded to the nearest 5 m, and the van's up.
const ROUNDED_TO_THE_NEAREST_FIVE: [(u32, u32, i128); 4] =
    [(50, 1, 7_037), (50, 2, 15_516), (80, 1, 14_013), (120, 1, 26_525)];

/// The least reaction times that AASHTO recommends for the decisions C to E, in tenths of a second, by section 3.2. The van takes the
/// greatest.
const LEAST_REACTION: [(u32, i128); 3] = [(3, 102), (4, 121), (5, 140)];

/// How a figure of table 2 comes of equation (2).
#[derive(Clone, Copy, Debug, PartialEq)]
enum Rounding {
    /// Up to a whole metre, as nearly all of them.
    Up,
    /// To the nearest whole metre.
    Nearest,
    /// Up to 5 m, as the figures of the level table are.
    UpToFive,
    /// By none of these.
    None,
}

/// The figures of table 2 that are not rounded up to a whole metre: speed, grade, the distance by the equation in hundredths
/// of a metre, cut off, and how it became the figure.
const ROUNDED_OTHERWISE: [(u32, i32, i128, Rounding); 11] = [
    (20, -300, 1_887, Rounding::UpToFive),
    (20, -900, 2_003, Rounding::Nearest),
    (30, -300, 3_204, Rounding::Nearest),
    (30, -600, 3_321, Rounding::UpToFive),
    (40, -300, 4_769, Rounding::UpToFive),
    (100, 300, 17_404, Rounding::Nearest),
    (110, -900, 26_211, Rounding::Nearest),
    (120, -600, 28_122, Rounding::Nearest),
    (120, -900, 30_435, Rounding::Nearest),
    // The equation gives 300.52 m, and no rounding of it gives the 302 m that are printed.
    (130, -300, 30_051, Rounding::None),
    (130, 300, 26_703, Rounding::Nearest),
];

fn van_distance(speed: u32, purpose: u32, grade: i32) -> Answer {
    bare(vcp::required_distance(speed, purpose, grade))
}

/// The van's answer, which is that of the second calculation.
fn compare(speed: u32, purpose: u32, grade: i32) -> Answer {
    let answer = van_distance(speed, purpose, grade);
    let second = required_distance(speed, purpose, grade);
    assert_eq!(answer, second, "speed {speed}, purpose {purpose}, grade {grade}");
    answer
}

/// The van's distance for a speed, a purpose and a grade that are accepted: one test compares all of these.
fn distance(speed: u32, purpose: u32, grade: i32) -> u32 {
    van_distance(speed, purpose, grade).expect("speed, purpose and grade are accepted")
}

/// Compares each speed with each purpose and each grade.
fn compare_all(speeds: &[u32], purposes: &[u32], grades: &[i32]) -> Tally {
    let mut tally = Tally::default();
    for &speed in speeds {
        for &purpose in purposes {
            for &grade in grades {
                tally.count(compare(speed, purpose, grade));
            }
        }
    }
    tally
}

/// All that is accepted. Nothing needs more than decision B at the greatest speed on the steepest downgrade, and no distance is
/// an exact multiple of 5 m before it is rounded.
#[test]
fn every_speed_purpose_and_grade() {
    let (mut distances, mut greatest) = (0, 0);
    for speed in 20..=130 {
        for purpose in 0..=5 {
            for grade in -1_500..=1_500 {
                let metres = compare(speed, purpose, grade).expect("speed, purpose and grade are accepted");
                let exact = exact_distance(speed, purpose as usize, grade);
                assert!(exact < Fraction::whole(metres.into()), "speed {speed}, purpose {purpose}, grade {grade}");
                greatest = greatest.max(metres);
                distances += 1;
            }
        }
    }
    assert_eq!(distances, 111 * 6 * 3_001);
    assert_eq!((greatest, distance(130, 2, -1_500)), (670, 670));
}

#[test]
fn every_speed_and_purpose_up_to_300() {
    let values: Vec<u32> = (0..=300).collect();
    let tally = compare_all(&values, &values, &[-1_501, -1_500, LEVEL]);
    assert_eq!(tally.numbers(), 111 * 6 * 2);
    assert_eq!(tally.refused(6), (301 - 111) * 301 * 3);
    assert_eq!(tally.refused(7), 111 * (301 - 6) * 3);
    assert_eq!(tally.refused(10), 111 * 6);
}

/// Edges of the accepted ranges, of the widths of whole numbers, and numbers that an 8-bit or 16-bit cast would bring
/// back into the ranges. Between the grades -3,465 and -3,466 the equation's denominator changes its sign.
#[test]
fn far_beyond_the_ranges() {
    let values = [
        0, 1, 5, 6, 19, 20, 80, 130, 131, 255, 256, 261, 336, 65535, 65536, 65541, 65616, 2147483647, 2147483648,
        4294967294, 4294967295,
    ];
    let accepted = [-1500, -1499, -600, -34, -33, -1, 0, 1, 600, 1499, 1500];
    let beyond = [1501, 1502, 3465, 3466, 10000, 32767, 32768, 64936, 65535, 65536, 66136, 2147483647];
    let refused: Vec<i32> = beyond.into_iter().flat_map(|grade| [-grade, grade]).chain([i32::MIN]).collect();
    let tally = compare_all(&values, &values, &[&accepted[..], &refused].concat());
    let grades = accepted.len() + refused.len();
    assert_eq!(tally.numbers(), 3 * 3 * accepted.len());
    assert_eq!(tally.refused(6), 18 * 21 * grades);
    assert_eq!(tally.refused(7), 3 * 18 * grades);
    assert_eq!(tally.refused(10), 3 * 3 * refused.len());
}

#[test]
fn stopping_distances_printed_by_aashto() {
    for (speed, metres) in PRINTED_BY_AASHTO {
        assert_eq!(van_distance(speed, STOPPING, LEVEL), Ok(metres), "van, speed {speed}");
        assert_eq!(required_distance(speed, STOPPING, LEVEL), Ok(metres), "second calculation, speed {speed}");
    }
}

/// How a figure comes of an exact distance: by the first rounding that gives it.
fn rounding_of(figure: u32, exact: Fraction) -> Rounding {
    let below = exact.floor();
    let up = below + i128::from(Fraction::whole(below) < exact);
    let nearest = (exact + Fraction::new(1, 2)).floor();
    match i128::from(figure) {
        metres if metres == up => Rounding::Up,
        metres if metres == nearest => Rounding::Nearest,
        metres if metres == up_to_five(exact).into() => Rounding::UpToFive,
        _ => Rounding::None,
    }
}

/// All figures of table 2. They are in whole metres, and the van answers each rounded up to 5 m; but at 20 km/h on a downgrade
/// of 9 %, where the equation gives a little more than 20 m, the table prints 20 and the van answers 25.
#[test]
fn stopping_distances_printed_by_aashto_on_grades() {
    let mut otherwise = Vec::new();
    for (speed, figures) in PRINTED_ON_GRADES {
        for (grade, figure) in PRINTED_GRADES.into_iter().zip(figures) {
            let exact = exact_distance(speed, STOPPING as usize, grade);
            let rounding = rounding_of(figure, exact);
            if rounding != Rounding::Up {
                otherwise.push((speed, grade, (exact * Fraction::whole(100)).floor(), rounding));
            }
            let expected = if (speed, grade) == (20, -900) { 25 } else { figure.next_multiple_of(5) };
            assert_eq!(van_distance(speed, STOPPING, grade), Ok(expected), "van, speed {speed}, grade {grade}");
            assert_eq!(up_to_five(exact), expected, "second calculation, speed {speed}, grade {grade}");
        }
    }
    assert_eq!(otherwise, ROUNDED_OTHERWISE);
}

/// The multiple of 5 m that is nearest to an exact distance.
fn nearest_five(exact: Fraction) -> u32 {
    let fives = (exact / Fraction::whole(5) + Fraction::new(1, 2)).floor();
    u32::try_from(5 * fives).expect("a distance is not negative")
}

/// All figures of table 3. Those of the decisions A and B are the van's, or the equation rounded to the nearest 5 m. Those of C to E lie
/// between the distance of the least reaction time that AASHTO recommends, rounded to the nearest 5 m, and the van's.
#[test]
fn decision_distances_printed_by_aashto() {
    let mut nearest = Vec::new();
    for (speed, figures) in PRINTED_DECISIONS {
        for (purpose, figure) in (1..).zip(figures) {
            let (metres, exact) = (distance(speed, purpose, LEVEL), exact_distance(speed, purpose as usize, LEVEL));
            if let Some((_, tenths)) = LEAST_REACTION.into_iter().find(|&(own, _)| own == purpose) {
                let shortest = Fraction::new(278, 10_000) * Fraction::whole(i128::from(speed) * tenths);
                assert!((nearest_five(shortest)..=metres).contains(&figure), "speed {speed}, purpose {purpose}");
            } else if figure != metres {
                assert_eq!(figure, nearest_five(exact), "speed {speed}, purpose {purpose}");
                nearest.push((speed, purpose, (exact * Fraction::whole(100)).floor()));
            }
        }
    }
    assert_eq!(nearest, ROUNDED_TO_THE_NEAREST_FIVE);
}

#[test]
fn cases_of_the_rules() {
    let cases = [
        (80, STOPPING, LEVEL, Ok(130)),
        (100, STOPPING, LEVEL, Ok(185)),
        (20, 1, LEVEL, Ok(25)),
        (130, 5, LEVEL, Ok(525)),
        (90, STOPPING, LEVEL, Ok(160)),
        (90, STOPPING, -600, Ok(175)),
        (20, STOPPING, LEVEL, Ok(20)),
        (20, STOPPING, -1_500, Ok(25)),
        (20, 1, -1_500, Ok(25)),
        (130, STOPPING, LEVEL, Ok(285)),
        (19, STOPPING, LEVEL, Err(6)),
        (131, STOPPING, LEVEL, Err(6)),
        (90, STOPPING, -1_501, Err(10)),
        (90, STOPPING, 1_501, Err(10)),
    ];
    for (speed, purpose, grade, answer) in cases {
        assert_eq!(van_distance(speed, purpose, grade), answer, "van, speed {speed}, purpose {purpose}, grade {grade}");
        let second = required_distance(speed, purpose, grade);
        assert_eq!(second, answer, "second calculation, speed {speed}, purpose {purpose}, grade {grade}");
    }
}

/// With more than one fault the first of 6, 7, 10 decides.
#[test]
fn refusals_in_order() {
    let speeds = [(19, true), (131, true), (20, false), (130, false)];
    let purposes = [(6, true), (u32::MAX, true), (0, false), (5, false)];
    let grades = [(-1_501, true), (1_501, true), (i32::MIN, true), (i32::MAX, true), (-1_500, false), (1_500, false)];
    let mut tally = Tally::default();
    for (speed, wrong_speed) in speeds {
        for (purpose, wrong_purpose) in purposes {
            for (grade, wrong_grade) in grades {
                let answer = compare(speed, purpose, grade);
                let first = [(wrong_speed, 6), (wrong_purpose, 7), (wrong_grade, 10)].into_iter().find(|fault| fault.0);
                assert_eq!(answer.err(), first.map(|(_, refusal)| refusal), "{speed}, {purpose}, {grade}");
                tally.count(answer);
            }
        }
    }
    assert_eq!([6, 7, 10].map(|refusal| tally.refused(refusal)), [2 * 4 * 6, 2 * 2 * 6, 2 * 2 * 4]);
    assert_eq!(tally.numbers(), 2 * 2 * 2);
}

/// Decisions C to E have no braking term: the grade changes nothing, and yet one that is out of range is refused.
#[test]
fn purposes_without_braking_ignore_the_grade() {
    for speed in 20..=130 {
        for purpose in 3..=5 {
            let level = distance(speed, purpose, LEVEL);
            for grade in -1_500..=1_500 {
                assert_eq!(distance(speed, purpose, grade), level, "speed {speed}, purpose {purpose}, grade {grade}");
            }
            for grade in [i32::MIN, -1_501, 1_501, i32::MAX] {
                assert_eq!(compare(speed, purpose, grade), Err(10), "speed {speed}, purpose {purpose}, grade {grade}");
            }
        }
    }
}

/// A gentle downgrade needs less than the level: 0.039 / 3.4 is a little more than 1 / (254 × 3.4 / 9.81), so the two forms
/// of braking do not meet at grade 0. Before rounding, downhill is longer from -34 on only, and uphill is always shorter.
#[test]
fn gentle_downgrades_are_shorter_than_the_level() {
    let mut shorter = 0;
    for speed in 20..=130 {
        for purpose in 0..=2 {
            let exact = |grade: i32| exact_distance(speed, purpose as usize, grade);
            let (level, level_exact) = (distance(speed, purpose, LEVEL), exact(LEVEL));
            for grade in (-1_500..=-1).chain(1..=1_500) {
                let metres = distance(speed, purpose, grade);
                let less = grade >= -33;
                assert_eq!(exact(grade) < level_exact, less, "speed {speed}, purpose {purpose}, grade {grade}");
                assert!(if less { metres <= level } else { metres >= level }, "{speed}, {purpose}, {grade}");
                shorter += usize::from(grade < 0 && metres < level);
            }
        }
    }
    assert_eq!(shorter, 793);
}

/// On a steep downgrade a driver needs more to stop than for decision C, which has no braking term: so a station may be judged
/// for the decision and not for stopping. No other decision needs less than stopping.
#[test]
fn stopping_may_need_more_than_decision_c() {
    let mut pairs = Vec::new();
    for speed in 20..=130 {
        for grade in -1_500..=1_500 {
            let stopping = distance(speed, STOPPING, grade);
            let exceeded: Vec<u32> = (1..=5).filter(|&decision| stopping > distance(speed, decision, grade)).collect();
            match exceeded[..] {
                [] => {}
                [3] => pairs.push((speed, grade)),
                _ => panic!("speed {speed}, grade {grade}: {exceeded:?}"),
            }
        }
    }
    assert_eq!(pairs.len(), 643);
    assert_eq!((pairs[0], pairs[642]), ((122, -1_500), (130, -1_352)));
    assert_eq!([STOPPING, 3].map(|purpose| distance(130, purpose, -1_500)), [430, 405]);
}

/// The second calculation by itself: 129.01 m before rounding at 80 km/h, 173.82 m at 90 km/h on a downgrade of 6 %; and a
/// distance is rounded to the least multiple of 5 m that is not below it.
#[test]
fn rounding_of_the_second_calculation() {
    let hundredths = |distance: Fraction| (distance * Fraction::whole(100)).floor();
    assert_eq!(hundredths(exact_distance(80, 0, LEVEL)), 12_901);
    assert_eq!(hundredths(exact_distance(90, 0, -600)), 17_382);
    for tenths in 0..=10_000 {
        let least = (0..).step_by(5).find(|metres| 10 * metres >= tenths).expect("some multiple reaches it");
        assert_eq!(up_to_five(Fraction::new(tenths.into(), 10)), least, "{tenths} tenths");
    }
}
