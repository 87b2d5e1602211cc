//! docs/RULES.md, "How long a sag must be".

use std::ops::RangeInclusive;

use sight_tests::bare;
use sight_tests::random::Random;
use sight_tests::reference::fraction::Fraction;
use sight_tests::reference::sag::{least_adequate, sag_length, Sag};
use sight_tests::reference::Answer;
use sight_tests::tally::Tally;

fn sag(speed: u32, rise: u32, sight: u32) -> Sag {
    Sag { speed, rise, sight }
}

fn proved_length(sag: Sag) -> Answer {
    bare(exports::sag_length(sag.speed, sag.rise, sag.sight))
}

/// The proved function and the second calculation both give this answer.
fn expect(sag: Sag, answer: Answer) {
    assert_eq!(proved_length(sag), answer, "proved, {sag:?}");
    assert_eq!(sag_length(sag), answer, "second calculation, {sag:?}");
}

/// The proved function's answer, which is that of the second calculation.
fn compare(sag: Sag) -> Answer {
    let answer = proved_length(sag);
    assert_eq!(answer, sag_length(sag), "{sag:?}");
    answer
}

/// The least even length of at least so many metres, a fraction; 0 for a negative one.
fn up_to_even(metres: Fraction) -> u32 {
    let halves = metres / Fraction::whole(2);
    let half = -(halves * Fraction::whole(-1)).floor();
    2 * u32::try_from(half.max(0)).expect("a length fits 32 bits")
}

/// 0.6 V metres, up to the next even one.
fn minimum(speed: u32) -> u32 {
    up_to_even(Fraction::new(6, 10) * Fraction::from(speed))
}

#[test]
fn cases_of_the_rules() {
    for (rise, sight, answer) in
        [(600, 130, Ok(178)), (300, 130, Ok(70)), (222, 130, Ok(48)), (221, 130, Ok(48)), (3_000, 800, Err(18))]
    {
        expect(sag(80, rise, sight), answer);
    }
    for (rise, least) in [(600, Some(178)), (300, Some(70)), (222, Some(2)), (221, Some(0))] {
        assert_eq!(least_adequate(sag(80, rise, 130)), least, "rise {rise}");
    }
}

/// Source document 002, equations (11) and (12): L = A S² / (120 + 3.5 S) where S is less than L, and 2 S − (120 + 3.5 S) / A
/// where S is greater than L, with A in percent. Where the first gives S, so does the second.
fn aashto(rise: u32, sight: u32) -> Fraction {
    let (a, s) = (Fraction::new(rise.into(), 100), Fraction::from(sight));
    let headlights = Fraction::whole(120) + Fraction::new(35, 10) * s;
    let longer = a * s * s / headlights;
    let shorter = Fraction::whole(2) * s - headlights / a;
    assert_eq!(longer < s, shorter < s, "rise {rise}, sight {sight}");
    if longer < s {
        shorter
    } else {
        longer
    }
}

/// The answer by these equations: no even length below 0.6 V, and none over 2,000 m.
fn by_aashto(sag: Sag) -> Answer {
    match up_to_even(aashto(sag.rise, sag.sight)) {
        length if length <= 2_000 => Ok(length.max(minimum(sag.speed))),
        _ => Err(18),
    }
}

/// Every rise with every sight distance, at one speed each, and all speeds in turn.
#[test]
fn every_length_of_the_aashto_equations() {
    let (mut shortest, mut beyond, mut within, mut refused) = (0, 0, 0, 0);
    for rise in 1..=3_000 {
        for sight in 1..=800 {
            let speed = 20 + (rise + 7 * sight) % 111;
            let sag = sag(speed, rise, sight);
            let answer = proved_length(sag);
            assert_eq!(answer, by_aashto(sag), "{sag:?}");
            match answer {
                Err(_) => refused += 1,
                Ok(length) if length == minimum(speed) => shortest += 1,
                Ok(length) if length < sight => beyond += 1,
                Ok(_) => within += 1,
            }
        }
    }
    let each = [shortest, beyond, within, refused];
    assert_eq!(each.iter().sum::<u32>(), 2_400_000);
    assert!(each.iter().all(|&many| many > 100_000), "{each:?}");
}

/// At every speed: the ranges' edges, flat breaks, which need just 0.6 V, and a grid of the others.
#[test]
fn every_speed_of_the_aashto_equations() {
    for speed in 20..=130 {
        expect(sag(speed, 1, 1), Ok(minimum(speed)));
        expect(sag(speed, 1, 800), Ok(minimum(speed)));
        expect(sag(speed, 3_000, 1), Ok(minimum(speed)));
        expect(sag(speed, 3_000, 800), Err(18));
        for rise in (1..=3_000).step_by(41) {
            for sight in (1..=800).step_by(17) {
                let sag = sag(speed, rise, sight);
                assert_eq!(proved_length(sag), by_aashto(sag), "{sag:?}");
            }
        }
    }
    for (speed, length) in [(20, 12), (21, 14), (49, 30), (50, 30), (51, 32), (80, 48), (129, 78), (130, 78)] {
        assert_eq!(minimum(speed), length, "{speed} km/h");
    }
}

/// Where S ≤ L, for S = 200 and so Q = 82,000: a = 41 k gives L = 20 k, L Q = a S². A unit more in the rise makes it too short, a
/// unit less saves nothing. 2,000 m are just adequate at last.
#[test]
fn just_adequate_where_the_sight_is_within_the_curve() {
    for k in 10..=73 {
        let length = 20 * k;
        expect(sag(20, 41 * k, 200), Ok(length));
        expect(sag(20, 41 * k + 1, 200), Ok(length + 2));
        expect(sag(20, 41 * k - 1, 200), Ok(length));
    }
    // S = 400 and Q = 152,000: a = 19 k gives L = 20 k.
    for k in [20, 21, 99] {
        expect(sag(130, 19 * k, 400), Ok(20 * k));
        expect(sag(130, 19 * k + 1, 400), Ok(20 * k + 2));
    }
    for speed in [20, 80, 130] {
        expect(sag(speed, 1_900, 400), Ok(2_000));
        expect(sag(speed, 1_901, 400), Err(18));
    }
}

/// Where L < S: with a (2 S − L) = Q the length L is just adequate, and where it is odd the even one above it is the answer. A unit
/// more in the rise makes an even L too short.
#[test]
fn just_adequate_where_the_sight_is_beyond_the_curve() {
    let (mut even, mut odd) = (0, 0);
    for sight in 1..=800 {
        let q = 12_000 + 350 * sight;
        for length in (13..sight).filter(|length| q % (2 * sight - length) == 0) {
            let rise = q / (2 * sight - length);
            if rise < 3_000 {
                expect(sag(20, rise, sight), Ok(length + length % 2));
                let longer = compare(sag(20, rise + 1, sight)).expect("it is below 2,000 m");
                if length % 2 == 0 {
                    assert!(longer > length, "{longer} for rise {rise} + 1, sight {sight}");
                    even += 1;
                } else {
                    odd += 1;
                }
            }
        }
    }
    assert!(even > 500 && odd > 500, "{even} even, {odd} odd");
}

#[test]
fn refusals_at_each_edge() {
    for (speed, answer) in [(0, Err(6)), (19, Err(6)), (20, Ok(178)), (130, Ok(178)), (131, Err(6))] {
        expect(sag(speed, 600, 130), answer);
    }
    for (rise, answer) in [(0, Err(15)), (1, Ok(12)), (3_000, Ok(1_464)), (3_001, Err(15))] {
        expect(sag(20, rise, 200), answer);
    }
    for (sight, answer) in [(0, Err(16)), (1, Ok(12)), (800, Ok(1_316)), (801, Err(16))] {
        expect(sag(20, 600, sight), answer);
    }
}

/// With more than one fault the lowest number decides; 18 comes after all of them.
#[test]
fn refusals_in_order() {
    for speed in [0, 19, 131, u32::MAX] {
        for (rise, sight) in [(0, 0), (3_001, 801), (0, 130), (600, 0), (600, 801), (3_000, 800)] {
            expect(sag(speed, rise, sight), Err(6));
        }
    }
    for rise in [0, 3_001, u32::MAX] {
        for sight in [0, 130, 800, 801, u32::MAX] {
            expect(sag(20, rise, sight), Err(15));
        }
    }
    for sight in [0, 801, u32::MAX] {
        expect(sag(130, 3_000, sight), Err(16));
    }
    expect(sag(130, 3_000, 800), Err(18));
}

/// Edges of the accepted ranges and of the widths of whole numbers, and numbers that fewer bits would bring back into the ranges.
#[test]
fn far_beyond_the_ranges() {
    let values = [
        0,
        1,
        2,
        799,
        800,
        801,
        2_999,
        3_000,
        3_001,
        65_535,
        65_536,
        66_336,
        68_536,
        2_147_483_647,
        2_147_483_648,
        2_147_484_448,
        4_294_967_295,
    ];
    let speeds = [20, 130, 0, 19, 131, 276, 65_556, 16_777_236, 2_147_483_668, 4_294_967_295];
    let mut tally = Tally::default();
    for speed in speeds {
        for rise in values {
            for sight in values {
                tally.count(compare(sag(speed, rise, sight)));
            }
        }
    }
    let (many, accepted, rises, sights) = (values.len(), 2, 7, 4);
    assert_eq!(tally.refused(6), (speeds.len() - accepted) * many * many);
    assert_eq!(tally.refused(15), accepted * (many - rises) * many);
    assert_eq!(tally.refused(16), accepted * rises * (many - sights));
    assert_eq!(tally.numbers() + tally.refused(18), accepted * rises * sights);
    // The two greatest rises with the two greatest sight distances.
    assert_eq!(tally.refused(18), accepted * 2 * 2);
}

/// Each number is within its range, at or just beyond an edge of it, or anything.
#[test]
fn random_sags() {
    fn draw(random: &mut Random, range: RangeInclusive<u32>) -> u32 {
        let (&least, &greatest) = (range.start(), range.end());
        match random.within(0..=9) {
            0 => random.one_of(&[least - 1, least, greatest, greatest + 1]),
            1 => random.bits() as u32,
            2..=4 => least - 1 + random.of_any_size(greatest + 1 - least),
            _ => random.within(range),
        }
    }
    let mut random = Random::new(4);
    let mut tally = Tally::default();
    for _ in 0..300_000 {
        let sag = sag(draw(&mut random, 20..=130), draw(&mut random, 1..=3_000), draw(&mut random, 1..=800));
        tally.count(compare(sag));
    }
    assert!(tally.numbers() > 50_000, "{} numbers", tally.numbers());
    for refusal in [6, 15, 16, 18] {
        assert!(tally.refused(refusal) > 10_000, "{} refused {refusal}", tally.refused(refusal));
    }
}
