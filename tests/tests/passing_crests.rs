//! Crests that are long enough to pass on: the figures that source document 002 prints, beside the length of a crest
//! and the passing marks of docs/RULES.md.

use sight_tests::bare;
use sight_tests::heights;
use sight_tests::reference::marks::{runs, EYE};
use sight_tests::reference::passing::{passing_marks, OBJECT};
use sight_tests::roads;

/// Source document 002, table 7: passing sight distance S in metres, and rate of vertical curvature K, which is the
/// length of a crest in metres for each percent of its drop.
const PRINTED: [(u32, u32); 11] = [
    (120, 17),
    (140, 23),
    (160, 30),
    (180, 38),
    (210, 51),
    (245, 69),
    (280, 91),
    (320, 119),
    (355, 146),
    (395, 181),
    (440, 224),
];

/// The slowest speed, and 0.6 V metres for it.
const SLOWEST: u32 = 20;
const SHORTEST: u32 = 12;

/// Source document 002, equations (21) and (22): L = A S² / 864 where the sight is within the curve, else
/// 2 S − 864 / A, with A in percent. Eye and object are equally high, so that the rule's root is whole and the van's
/// length is the next even one, or the minimum. Within the curve it is A K as well, up to the rounding of the printed K
/// and to the next even metre.
#[test]
fn lengths_of_the_aashto_equations() {
    let (mut shortest, mut beyond, mut within, mut refused) = (0, 0, 0, 0);
    for (sight, rate) in PRINTED {
        // S² / 864 to the nearest whole number; the half of 180 m, 37.5, up.
        assert_eq!((sight * sight + 432) / 864, rate, "{sight} m");
        for drop in 1..=3_000 {
            let is_within = drop * sight >= 86_400;
            // Half of the next even length, by the one equation or the other.
            let half =
                if is_within { (drop * sight * sight).div_ceil(172_800) } else { sight.saturating_sub(43_200 / drop) };
            let expected = if half <= 1_000 { Ok(SHORTEST.max(2 * half)) } else { Err(18) };
            let answer = bare(vcp::crest_length(SLOWEST, drop, sight, EYE, OBJECT));
            assert_eq!(answer, expected, "drop {drop}, sight {sight}");
            match answer {
                Err(_) => refused += 1,
                Ok(SHORTEST) => shortest += 1,
                Ok(length) if is_within => {
                    let (least, beyond_most) = (drop * (2 * rate - 1), drop * (2 * rate + 1) + 400);
                    assert!((least..beyond_most).contains(&(200 * length)), "drop {drop}, sight {sight}, rate {rate}");
                    within += 1;
                }
                Ok(_) => beyond += 1,
            }
        }
    }
    let each = [shortest, beyond, within, refused];
    assert_eq!(each.iter().sum::<u32>(), 33_000);
    assert!(each.iter().all(|&many| many > 2_000), "{each:?}");
}

/// The crests with a rate of vertical curvature K whose drop is 2, 4, up to 30 %, so that K A is whole and even: drop
/// and length, where that is at least the sight and at most 2,000 m.
fn crests(sight: u32, rate: u32) -> Vec<(u32, u32)> {
    let all = (1..=15).map(|n| (200 * n, 2 * rate * n));
    all.filter(|(_, length)| (sight..=2_000).contains(length)).collect()
}

/// The program's marks for a passing distance, one a station.
fn program_marks(heights: &[i32], distance: u32) -> Vec<u8> {
    let mut marks = vec![0; heights.len()];
    assert_eq!(exports::passing_marks(heights, distance, &mut marks), Ok(heights.len() as u32));
    marks
}

/// Whether the program marks stations as lacking on crests with this rate, between straights as long as the sight: on
/// all of them, however steep they begin, or on none. Where it does, all stations lack from which the sight ends on
/// the curve as well.
fn lacks(sight: u32, rate: u32) -> bool {
    let mut lack = Vec::new();
    for (drop, length) in crests(sight, rate) {
        for first_grade in [1_500, drop as i32 / 2, drop as i32 - 1_500] {
            let road = roads::one_crest(first_grade as i16, drop as i16, length as u16, sight);
            let (begin, end) = (sight, sight + length);
            let marks = program_marks(&heights::of_road(&road), sight);
            let zones = runs(&marks, exports::PASSING_LACKING_BIT);
            lack.push(!zones.is_empty());
            if let Some(&[first, last]) = zones.first() {
                assert!(first <= begin && end - sight <= last && zones.len() == 1, "{zones:?}, {road:?}");
            }
        }
    }
    assert!(lack.iter().all(|&one| one == lack[0]), "{sight} m, rate {rate}: {lack:?}");
    lack[0]
}

/// Crests of the printed rates, L = K A. Three of these were rounded down: 51 of 51.04, 69 of 69.47 and 224 of
/// 224.07. Just there a driver does not see S ahead.
#[test]
fn marks_on_the_printed_crests() {
    let mut lacking = Vec::new();
    for (sight, rate) in PRINTED {
        let rounded_down = 864 * rate < sight * sight;
        assert_eq!(lacks(sight, rate), rounded_down, "{sight} m, rate {rate}");
        lacking.extend(rounded_down.then_some(rate));
    }
    assert_eq!(lacking, [51, 69, 224]);
}

/// A rate less by one is too little for every row.
#[test]
fn marks_on_crests_that_are_too_short() {
    for (sight, rate) in PRINTED {
        assert!(lacks(sight, rate - 1), "{sight} m, rate {rate} - 1");
    }
}

/// The second calculation marks the shortest of these crests as the program does. Straights of 30 m on either side are
/// enough: from the first station, and from the last that is judged, one sees S ahead.
#[test]
fn marks_of_the_second_calculation() {
    for (sight, rate) in PRINTED.into_iter().flat_map(|(sight, rate)| [(sight, rate), (sight, rate - 1)]) {
        let (drop, length) = crests(sight, rate)[0];
        let heights = heights::of_road(&roads::one_crest(drop as i16 / 2, drop as i16, length as u16, 30));
        let mut second = vec![0; heights.len()];
        assert_eq!(passing_marks(&heights, sight, &mut second), Ok(length + 61));
        assert_eq!(program_marks(&heights, sight), second, "{sight} m, rate {rate}");
        assert_eq!((second[0], second[length as usize + 60 - sight as usize]), (0, 0), "{sight} m, rate {rate}");
    }
}
