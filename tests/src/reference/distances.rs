//! docs/RULES.md, "Distances a driver needs", and source document 002, equations (1) and (2).

use super::fraction::Fraction;
use super::Answer;

/// A purpose's reaction time in tenths of a second, and whether the braking term counts.
struct Purpose {
    tenths: i128,
    braking: bool,
}

/// Stopping, then decision A to E.
const PURPOSES: [Purpose; 6] = [
    Purpose { tenths: 25, braking: true },
    Purpose { tenths: 30, braking: true },
    Purpose { tenths: 91, braking: true },
    Purpose { tenths: 112, braking: false },
    Purpose { tenths: 129, braking: false },
    Purpose { tenths: 145, braking: false },
];

/// The braking distance in metres: 0.039 V² / a where the grade is 0, else V² / (254 (a / 9.81 + G)), with a = 3.4 m/s² and
/// the grade as a fraction G, uphill positive.
fn braking_distance(v: Fraction, grade: i32) -> Fraction {
    let a = Fraction::new(34, 10);
    if grade == 0 {
        return Fraction::new(39, 1000) * v * v / a;
    }
    let g = Fraction::new(grade.into(), 10_000);
    v * v / (Fraction::whole(254) * (a / Fraction::new(981, 100) + g))
}

/// The distance in metres before rounding, on a grade in hundredths of a percent: 0.278 V T, and the braking distance where
/// braking counts.
pub fn exact_distance(speed: u32, purpose: usize, grade: i32) -> Fraction {
    let Purpose { tenths, braking } = PURPOSES[purpose];
    let v = Fraction::whole(speed.into());
    let t = Fraction::new(tenths, 10);
    let reaction_distance = Fraction::new(278, 1000) * v * t;
    if braking {
        reaction_distance + braking_distance(v, grade)
    } else {
        reaction_distance
    }
}

/// The multiple of 5 m that is the distance, or else the one next above it.
pub fn up_to_five(distance: Fraction) -> u32 {
    let five = Fraction::whole(5);
    let fives = Fraction::whole((distance / five).floor());
    let fives = if fives * five == distance { fives } else { fives + Fraction::whole(1) };
    u32::try_from((fives * five).floor()).expect("a distance is not negative")
}

pub fn required_distance(speed: u32, purpose: u32, grade: i32) -> Answer {
    if !(20..=130).contains(&speed) {
        return Err(6);
    }
    if !(0..=5).contains(&purpose) {
        return Err(7);
    }
    if !(-1_500..=1_500).contains(&grade) {
        return Err(10);
    }
    Ok(up_to_five(exact_distance(speed, purpose as usize, grade)))
}
