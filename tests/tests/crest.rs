//! docs/RULES.md, "How long a crest must be".

use sight_tests::bare;
use sight_tests::random::Random;
use sight_tests::reference::crest::{crest_length, least_adequate, Crest};
use sight_tests::reference::marks::{EYE, OBJECT};
use sight_tests::reference::Answer;
use sight_tests::tally::Tally;

/// The slowest speed, and 0.6 V metres for it: of all speeds it hides the fewest adequate lengths.
const SLOWEST: u32 = 20;
const SHORTEST: u32 = 12;

/// A crest at the slowest speed.
fn crest(drop: u32, sight: u32, eye: u32, object: u32) -> Crest {
    Crest { speed: SLOWEST, drop, sight, eye, object }
}

/// The same crest at another speed.
fn at(speed: u32, crest: Crest) -> Crest {
    Crest { speed, ..crest }
}

/// The least even length of at least 0.6 V metres: half of it is 0.3 V, rounded up.
fn minimum(speed: u32) -> u32 {
    2 * (3 * speed).div_ceil(10)
}

fn van_length(crest: Crest) -> Answer {
    bare(vcp::crest_length(crest.speed, crest.drop, crest.sight, crest.eye, crest.object))
}

/// The van and the second calculation both give this answer.
fn expect(crest: Crest, answer: Answer) {
    assert_eq!(van_length(crest), answer, "van, {crest:?}");
    assert_eq!(crest_length(crest), answer, "second calculation, {crest:?}");
}

/// The van's answer, which is that of the second calculation.
fn compare(crest: Crest) -> Answer {
    let answer = van_length(crest);
    assert_eq!(answer, crest_length(crest), "{crest:?}");
    answer
}

#[test]
fn cases_of_the_rules() {
    for (drop, sight, answer) in
        [(600, 130, Ok(156)), (300, 130, Ok(48)), (253, 130, Ok(48)), (254, 130, Ok(48)), (3_000, 800, Err(18))]
    {
        expect(at(80, crest(drop, sight, EYE, OBJECT)), answer);
    }
    for (drop, least) in [(600, 156), (300, 42), (253, 0), (254, 2)] {
        assert_eq!(least_adequate(crest(drop, 130, EYE, OBJECT)), Some(least), "drop {drop}");
    }
}

/// 0.6 V worked by hand, with the next even metre where it is none itself: 12.6 and 13.8 up to 14, 14.4 up to 16, 29.4 up to
/// 30, 30.6 up to 32, 77.4 up to 78. A flat break needs no more; at 70 km/h 0.6 V is just the least adequate length of the
/// rules' drop of 3 %.
#[test]
fn no_crest_is_shorter_than_the_minimum() {
    let flat = crest(253, 130, EYE, OBJECT);
    for (speed, length) in [
        (20, 12),
        (21, 14),
        (23, 14),
        (24, 16),
        (30, 18),
        (40, 24),
        (49, 30),
        (50, 30),
        (51, 32),
        (60, 36),
        (70, 42),
        (80, 48),
        (90, 54),
        (100, 60),
        (110, 66),
        (120, 72),
        (129, 78),
        (130, 78),
    ] {
        assert_eq!(minimum(speed), length, "{speed} km/h");
        expect(at(speed, flat), Ok(length));
        expect(at(speed, crest(1, 1, 1, 1)), Ok(length));
    }
    for (speed, length) in [(20, 42), (69, 42), (70, 42), (71, 44)] {
        expect(at(speed, crest(300, 130, EYE, OBJECT)), Ok(length));
    }
}

/// At every speed the answer is the greater of the minimum and the least adequate length; where there is no adequate
/// length it is 18 at every speed, also where 2,000 m are just too short.
#[test]
fn the_speed_moves_short_lengths_alone() {
    let mut random = Random::new(3);
    let (mut moved, mut kept, mut refused) = (0, 0, 0);
    for speed in 20..=130 {
        expect(at(speed, crest(1_000, 400, 10_000, 10_000)), Ok(2_000));
        expect(at(speed, crest(1_001, 400, 10_000, 10_000)), Err(18));
        expect(at(speed, crest(1_000, 400, 9_999, 10_000)), Err(18));
        for _ in 0..300 {
            let (drop, sight) = (random.of_any_size(3_000), random.of_any_size(800));
            let crest = at(speed, crest(drop, sight, random.of_any_size(50_000), random.of_any_size(50_000)));
            let least = least_adequate(crest);
            expect(crest, least.map(|least| least.max(minimum(speed))).ok_or(18));
            match least {
                Some(least) if least < minimum(speed) => moved += 1,
                Some(_) => kept += 1,
                None => refused += 1,
            }
        }
    }
    assert!(moved > 5_000 && kept > 5_000 && refused > 1_000, "{moved}, {kept}, {refused}");
}

#[test]
fn refusals_at_each_edge() {
    for (speed, answer) in [(0, Err(6)), (19, Err(6)), (20, Ok(156)), (130, Ok(156)), (131, Err(6))] {
        expect(at(speed, crest(600, 130, EYE, OBJECT)), answer);
    }
    for (drop, answer) in [(0, Err(15)), (1, Ok(SHORTEST)), (3_000, Ok(1_974)), (3_001, Err(15))] {
        expect(crest(drop, 208, EYE, OBJECT), answer);
    }
    for (sight, answer) in [(0, Err(16)), (1, Ok(SHORTEST)), (800, Ok(1_558)), (801, Err(16))] {
        expect(crest(160, sight, EYE, OBJECT), answer);
    }
    for (height, answer) in [(0, Err(17)), (1, Ok(352)), (50_000, Ok(SHORTEST)), (50_001, Err(17))] {
        expect(crest(300, 120, height, OBJECT), answer);
        expect(crest(300, 120, OBJECT, height), answer);
    }
}

/// With more than one fault the lowest number decides; 18 comes after all of them.
#[test]
fn refusals_in_order() {
    for speed in [0, 19, 131, u32::MAX] {
        for (drop, sight, height) in [(0, 0, 0), (3_001, 801, 50_001), (0, 130, EYE), (600, 0, EYE), (600, 130, 0)] {
            expect(at(speed, crest(drop, sight, height, height)), Err(6));
        }
        expect(at(speed, crest(3_000, 800, 1, 1)), Err(6));
    }
    for (drop, sight) in [(0, 0), (3_001, 801)] {
        for height in [0, 50_001] {
            expect(crest(drop, sight, height, height), Err(15));
            expect(crest(drop, 1, height, 1), Err(15));
            expect(crest(3_000, sight, height, height), Err(16));
            expect(crest(3_000, sight, 1, height), Err(16));
            expect(crest(3_000, 800, height, 1), Err(17));
            expect(crest(3_000, 800, 1, height), Err(17));
        }
    }
    expect(crest(3_001, 800, 1, 1), Err(15));
    expect(crest(3_000, 801, 1, 1), Err(16));
    expect(crest(3_000, 800, 1, 1), Err(18));
}

/// Where S ≤ L, with heights whose root is whole and Q = S² / 2: every even length L is just adequate for a = L / 2,
/// L Q = a S². A unit less in either height makes it too short; a unit more saves nothing.
#[test]
fn just_adequate_where_the_sight_is_within_the_curve() {
    // eye = object: Q = 8 o. eye = 4 × object: Q = 18 o. eye = 9 × object: Q = 32 o.
    for (sight, eye, object) in [(400, 10_000, 10_000), (600, 40_000, 10_000), (240, 8_100, 900)] {
        for (eye, object) in [(eye, object), (object, eye)] {
            for drop in sight / 2..=1_000 {
                let length = Ok(2 * drop);
                let longer = if drop < 1_000 { Ok(2 * drop + 2) } else { Err(18) };
                expect(crest(drop, sight, eye, object), length);
                expect(crest(drop, sight, eye - 1, object), longer);
                expect(crest(drop, sight, eye, object - 1), longer);
                expect(crest(drop, sight, eye + 1, object), length);
                expect(crest(drop, sight, eye, object + 1), length);
            }
            expect(crest(1_001, sight, eye, object), Err(18));
        }
    }
}

/// Where L < S, with heights whose root is whole and Q = 2 a²: the length 2S − 2a is just adequate, a (2S − L) = Q. A unit
/// more in the drop, or less in either height, makes it too short by one step of 2 m; a unit less in the drop saves one,
/// and a unit more in either height saves nothing. Where that is below 12 m the minimum is the answer.
#[test]
fn just_adequate_where_the_sight_is_beyond_the_curve() {
    // Q = 8 o, 18 o and 32 o again.
    for (drop, eye, object) in [(200, 10_000, 10_000), (90, 3_600, 900), (120, 8_100, 900)] {
        for (eye, object) in [(eye, object), (object, eye)] {
            for sight in drop + 1..2 * drop {
                let length = 2 * (sight - drop);
                let or_minimum = |length: u32| Ok(length.max(SHORTEST));
                expect(crest(drop, sight, eye, object), or_minimum(length));
                expect(crest(drop + 1, sight, eye, object), or_minimum(length + 2));
                expect(crest(drop - 1, sight, eye, object), or_minimum(length - 2));
                expect(crest(drop, sight, eye - 1, object), or_minimum(length + 2));
                expect(crest(drop, sight, eye, object - 1), or_minimum(length + 2));
                expect(crest(drop, sight, eye + 1, object), or_minimum(length));
                expect(crest(drop, sight, eye, object + 1), or_minimum(length));
            }
        }
    }
}

/// A just adequate length that is odd is no answer; the even one above it is.
#[test]
fn odd_lengths_are_passed_over() {
    // Q = 80,000 = 128 × 625, so the least adequate length is 2S − 625.
    for sight in 318..625 {
        expect(crest(128, sight, 10_000, 10_000), Ok(2 * sight - 624));
    }
    // Q = 80,000 and S = 200, so the least adequate length is a / 2.
    for drop in (402..=2_998).step_by(4) {
        expect(crest(drop, 200, 10_000, 10_000), Ok(drop / 2 + 1));
    }
}

/// Source document 002, equations (9) and (10), for eye 1.08 m and object 0.60 m: L = A S² / 658 where the sight is within
/// the curve, else 2S − 658 / A, with A in percent. The van's length is the next even one, up to the rounding in 658, or the
/// minimum, at every speed.
#[test]
fn lengths_of_the_aashto_equations() {
    let (mut shortest, mut lengths, mut refused) = (0, 0, 0);
    for drop in (1..=3_000).step_by(7) {
        for sight in (1..=800).step_by(3) {
            let (a, s) = (i64::from(drop), i64::from(sight));
            let tenths = if a * s >= 65_800 { 10 * a * s * s / 65_800 } else { 20 * s - 658_000 / a };
            let speed = 20 + (drop + sight) % 111;
            let shortest_tenths = 10 * i64::from(minimum(speed));
            let answer = van_length(at(speed, crest(drop, sight, EYE, OBJECT)));
            let (agrees, kind) = match answer {
                Err(refusal) => (refusal == 18 && tenths >= 19_999, &mut refused),
                Ok(length) if length == minimum(speed) => (tenths <= shortest_tenths + 1, &mut shortest),
                Ok(length) => {
                    let over = 10 * i64::from(length) - tenths;
                    (length > minimum(speed) && (-1..=21).contains(&over), &mut lengths)
                }
            };
            assert!(
                agrees,
                "{speed} km/h, drop {drop}, sight {sight}: van {answer:?}, equations {tenths} tenths of a metre"
            );
            *kind += 1;
        }
    }
    assert!(shortest > 5_000 && lengths > 40_000 && refused > 40_000, "{shortest}, {lengths}, {refused}");
}

/// Edges of the accepted ranges and of the widths of whole numbers, and numbers that a 16-bit cast would bring back into
/// the ranges.
#[test]
fn far_beyond_the_ranges() {
    let values = [
        0, 1, 2, 799, 800, 801, 2999, 3000, 3001, 49999, 50000, 50001, 65535, 65536, 66236, 2147483647, 2147483648,
        4294967295,
    ];
    // 2^8, 2^16, 2^24 and 2^31 with 20 behind would be 20 km/h in fewer bits.
    let speeds = [20, 130, 0, 19, 131, 276, 65_556, 16_777_236, 2_147_483_668, 4_294_967_295];
    let mut tally = Tally::default();
    for speed in speeds {
        for drop in values {
            for sight in values {
                for eye in values {
                    for object in values {
                        tally.count(compare(at(speed, crest(drop, sight, eye, object))));
                    }
                }
            }
        }
    }
    let (many, accepted, drops, sights, heights) = (values.len(), 2, 7, 4, 10);
    assert_eq!(tally.refused(6), (speeds.len() - accepted) * many.pow(4));
    assert_eq!(tally.refused(15), accepted * (many - drops) * many.pow(3));
    assert_eq!(tally.refused(16), accepted * drops * (many - sights) * many.pow(2));
    assert_eq!(tally.refused(17), accepted * drops * sights * (many.pow(2) - heights * heights));
    assert_eq!(tally.numbers() + tally.refused(18), accepted * drops * sights * heights * heights);
    assert!(tally.numbers() > 1_000 && tally.refused(18) > 1_000);
}

#[test]
fn random_crests_within_the_ranges() {
    let mut random = Random::new(1);
    let mut tally = Tally::default();
    let (mut shortest, mut beyond, mut within) = (0, 0, 0);
    for _ in 0..200_000 {
        let drop = random.of_any_size(3_000);
        let sight = random.within(1..=800);
        let speed = random.within(20..=130);
        let crest = at(speed, crest(drop, sight, random.of_any_size(50_000), random.of_any_size(50_000)));
        let answer = compare(crest);
        tally.count(answer);
        match answer {
            Ok(length) if length == minimum(speed) => shortest += 1,
            Ok(length) if length < sight => beyond += 1,
            Ok(_) => within += 1,
            Err(_) => {}
        }
    }
    assert_eq!(tally.numbers() + tally.refused(18), 200_000);
    assert!(tally.refused(18) > 10_000, "{} refused 18", tally.refused(18));
    assert!(shortest > 10_000, "{shortest} of the minimum's length");
    assert!(beyond > 10_000, "{beyond} with the sight beyond the curve");
    assert!(within > 10_000, "{within} with the sight within the curve");
}

/// Each number is within its range, at or just beyond an edge of it, or anything.
#[test]
fn random_crests_in_and_out_of_the_ranges() {
    let mut random = Random::new(2);
    let mut tally = Tally::default();
    for _ in 0..200_000 {
        let speed = random.in_or_out_of(20..=130);
        let (drop, sight) = (random.in_or_out_of(1..=3_000), random.in_or_out_of(1..=800));
        let (eye, object) = (random.in_or_out_of(1..=50_000), random.in_or_out_of(1..=50_000));
        tally.count(compare(at(speed, crest(drop, sight, eye, object))));
    }
    assert!(tally.numbers() > 20_000, "{} numbers", tally.numbers());
    for refusal in [6, 15, 16, 17, 18] {
        assert!(tally.refused(refusal) > 10_000, "{} refused {refusal}", tally.refused(refusal));
    }
}
