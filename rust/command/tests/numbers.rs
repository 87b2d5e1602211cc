//! `vcp distance`, `vcp passing-distance`, `vcp crest` and `vcp sag`, against the second calculation.

mod common;

use std::fs;

use common::{expect, expect_error, expect_wrong, folder, root, run};
use sight_tests::random::Random;
use sight_tests::reference::crest::{crest_length, Crest};
use sight_tests::reference::distances::required_distance;
use sight_tests::reference::passing::{passing_distance, RANGES};
use sight_tests::reference::sag::{sag_length, Sag};
use sight_tests::reference::Answer;
use sight_tests::tally::Tally;

/// The number that a command prints, or that of its refusal.
fn answer(arguments: &[&str]) -> Answer {
    let ended = run(&root(), arguments);
    match ended.status {
        0 => Ok(ended.output.strip_suffix('\n').and_then(|line| line.parse().ok()).expect("a number on a line")),
        1 => {
            let begin = format!("vcp {}: refused ", arguments[0]);
            let rest = ended.errors.strip_prefix(&begin).expect("the command's name and its refusal");
            Err(rest.split(':').next().and_then(|number| number.parse().ok()).expect("a refusal's number"))
        }
        status => panic!("{arguments:?} ended with {status}: {}", ended.errors),
    }
}

/// Every purpose by its number and by its names, at many speeds and at the edges, on the level where nothing else is said.
#[test]
fn distances() {
    let names = [
        &["0", "stopping", "Stopping"][..],
        &["1", "A", "a", "decision-A"],
        &["2", "B", "decision-b"],
        &["3", "C", "Decision-C"],
        &["4", "d", "decision-D"],
        &["5", "E", "DECISION-E"],
    ];
    for speed in [20, 21, 55, 80, 90, 129, 130] {
        for (purpose, names) in (0..).zip(names) {
            for name in names {
                let expected = required_distance(speed, purpose, 0);
                assert_eq!(answer(&["distance", &speed.to_string(), name]), expected, "{speed} {name}");
            }
        }
    }
    for (speed, purpose, refusal) in [("19", "0", 6), ("131", "6", 6), ("4294967376", "0", 6), ("80", "6", 7)] {
        assert_eq!(answer(&["distance", speed, purpose]), Err(refusal), "{speed} {purpose}");
    }
}

/// A grade in percent, with some of the zeros that may be left out.
fn percent(random: &mut Random, grade: i32) -> String {
    let sign = if grade < 0 { "-" } else { "" };
    let text = format!("{sign}{}", decimal(grade.unsigned_abs(), 100, 2));
    match grade.rem_euclid(100) {
        0 if random.once_in(2) => text.strip_suffix(".00").expect("two zeros").to_string(),
        rest if rest % 10 == 0 && random.once_in(2) => text.strip_suffix('0').expect("a zero").to_string(),
        _ => text,
    }
}

/// Any grade, behind the option or an '=', before the operands or behind them.
#[test]
fn distances_on_grades() {
    let mut random = Random::new(92);
    let (mut downhill, mut uphill, mut refused) = (0, 0, 0);
    for round in 0..600 {
        let (speed, purpose) = (random.within(20..=130), random.within(0..=5));
        let grade = match round % 6 {
            0 => 100 * random.signed_within(-15..=15),
            1 => 10 * random.signed_within(-150..=150),
            2 => random.one_of(&[-1_500, -1, 0, 1, 1_500]),
            3 => random.one_of(&[-99_999, -1_501, 1_501, 99_999]),
            _ => random.signed_within(-1_500..=1_500),
        };
        let expected = required_distance(speed, purpose, grade);
        let (speed, purpose, grade_word) = (speed.to_string(), purpose.to_string(), percent(&mut random, grade));
        let joined = format!("--grade={grade_word}");
        let forms = [
            vec!["distance", &speed, &purpose, "--grade", &grade_word],
            vec!["distance", "--grade", &grade_word, &speed, &purpose],
            vec!["distance", &speed, &joined, &purpose],
            vec!["distance", &joined, "--", &speed, &purpose],
        ];
        let arguments = &forms[round / 6 % 4];
        assert_eq!(answer(arguments), expected, "{arguments:?}");
        refused += usize::from(expected == Err(10));
        downhill += usize::from(expected.is_ok() && grade < 0);
        uphill += usize::from(expected.is_ok() && grade > 0);
    }
    assert_eq!(refused, 100);
    assert!(downhill > 150 && uphill > 150, "{downhill} downhill, {uphill} uphill");
}

/// A grade that is out of range is refused after the speed and the purpose, also one that 32 or 64 bits do not hold.
#[test]
fn refused_grades() {
    for grade in [
        "15.01",
        "-15.01",
        "16",
        "-16",
        "42949672.96",
        "-42949672.96",
        "21474836.48",
        "-21474836.49",
        "99999999999999999999",
        "-99999999999999999999",
    ] {
        for (speed, purpose, refusal) in [("90", "0", 10), ("90", "5", 10), ("90", "6", 7), ("19", "6", 6)] {
            let arguments = ["distance", speed, purpose, "--grade", grade];
            assert_eq!(answer(&arguments), Err(refusal), "{arguments:?}");
        }
    }
    for (grade, metres) in [("-15", 225), ("-15.00", 225), ("-6.00", 175), ("0", 160), ("-0", 160), ("15.0", 130)] {
        assert_eq!(answer(&["distance", "90", "0", "--grade", grade]), Ok(metres), "{grade}");
    }
}

/// The whole line, and what is no number and no purpose.
#[test]
fn lines_of_a_distance() {
    let folder = folder("distance_lines");
    expect(&folder, &["distance", "80", "stopping"], "130\n");
    let refused = "vcp distance: refused 6: the speed is not 20 to 130 km/h\n";
    expect_error(&folder, &["distance", "19", "stopping"], 1, refused);
    expect_wrong(&folder, &["distance", "80"], "PURPOSE is missing");
    expect_wrong(&folder, &["distance"], "SPEED is missing");
    expect_wrong(&folder, &["distance", "80", "0", "0"], "\"0\" is one argument too many");
    expect_wrong(&folder, &["distance", "80.5", "0"], "SPEED: \"80.5\" is not whole");
    expect_wrong(&folder, &["distance", "80", "F"], "PURPOSE: \"F\" is no purpose: 0 to 5, stopping, or A to E");
    expect_wrong(&folder, &["distance", "--", "-80", "0"], "SPEED: \"-80\" is negative");
    expect_wrong(&folder, &["distance", "80", "0", "--eye", "1"], "there is no option --eye");
}

/// The same of a grade.
#[test]
fn lines_of_a_distance_on_a_grade() {
    let folder = folder("distance_grades");
    expect(&folder, &["distance", "90", "stopping", "--grade", "-6.00"], "175\n");
    expect(&folder, &["distance", "90", "stopping", "--grade=-6.00"], "175\n");
    let refused = "vcp distance: refused 10: a grade is not -1,500 to 1,500 hundredths of a percent (-15 to 15 %)\n";
    expect_error(&folder, &["distance", "90", "stopping", "--grade", "-15.01"], 1, refused);
    for (value, reason) in [
        ("-6.001", "--grade: \"-6.001\" has more than 2 decimals"),
        ("-6%", "--grade: \"-6%\" is no number"),
        ("+6", "--grade: \"+6\" is no number"),
        ("-", "--grade: \"-\" is no number"),
        ("-.5", "--grade: \"-.5\" is no number"),
        ("", "--grade: the number is missing"),
        ("--6", "--grade needs PERCENT"),
    ] {
        expect_wrong(&folder, &["distance", "90", "0", "--grade", value], reason);
    }
    expect_wrong(&folder, &["distance", "90", "0", "--grade"], "--grade needs PERCENT");
    expect_wrong(&folder, &["distance", "90", "0", "--grade=--6"], "--grade: \"--6\" is no number");
    expect_wrong(&folder, &["distance", "90", "0", "--grade", "-6", "--grade=3"], "--grade stands twice");
    expect_wrong(&folder, &["distance", "90", "0", "-6.00"], "there is no option -6.00");
    expect_wrong(&folder, &["crest", "--drop", "6", "--speed", "90", "--grade", "3"], "there is no option --grade");
}

/// Hundredths or ten-thousandths as a decimal.
fn decimal(number: u32, unit: u32, digits: usize) -> String {
    format!("{}.{:0digits$}", number / unit, number % unit)
}

/// What a command answers for its options, whichever comes first, which is what is expected.
fn compare(random: &mut Random, command: &str, mut options: Vec<[&str; 2]>, expected: Answer) -> Answer {
    let first = random.within(1..=options.len() as u32);
    options.rotate_left(first as usize - 1);
    let arguments = [&[command][..], &options.concat()].concat();
    assert_eq!(answer(&arguments), expected, "{arguments:?}");
    expected
}

/// Tenths as a decimal, without a zero behind the point.
fn of_tenths(number: u32) -> String {
    let text = decimal(number, 10, 1);
    text.strip_suffix(".0").map_or(text.clone(), str::to_string)
}

/// The six values in and out of their ranges, whichever comes first.
#[test]
fn random_passing_distances() {
    let mut random = Random::new(101);
    let mut tally = Tally::default();
    for _ in 0..600 {
        let six = RANGES.map(|range| match random.within(0..=19) {
            0 => random.one_of(&[0, range.start() - 1, range.end() + 1, 99_999]),
            1 => random.one_of(&[*range.start(), *range.end()]),
            _ => random.within(range),
        });
        let [t1, a, v, m, t2, d3] = six;
        let [t1, v, m, t2] = [t1, v, m, t2].map(of_tenths);
        let (a, d3) = (decimal(a, 100, 2), d3.to_string());
        let options = vec![["--t1", &t1], ["--a", &a], ["--v", &v], ["--m", &m], ["--t2", &t2], ["--d3", &d3]];
        tally.count(compare(&mut random, "passing-distance", options, passing_distance(six)));
    }
    assert!(tally.numbers() > 100 && tally.refused(24) > 100);
}

/// The values of a manoeuvre that are given, as options.
fn manoeuvre<'a>(changed: &'a str, value: &'a str) -> Vec<&'a str> {
    let six = [("--t1", "3.6"), ("--a", "2.25"), ("--v", "56.2"), ("--m", "15"), ("--t2", "9.3"), ("--d3", "30")];
    let options = six.into_iter().flat_map(|(name, own)| [name, if name == changed { value } else { own }]);
    ["passing-distance"].into_iter().chain(options).collect()
}

/// The whole line, and what is missing, out of range or no number.
#[test]
fn lines_of_a_passing_distance() {
    let folder = folder("passing_distance_lines");
    expect(&folder, &manoeuvre("", ""), "320\n");
    expect(&folder, &manoeuvre("--m", "15.0"), "320\n");
    let ends = |place: usize, text: fn(u32) -> String| {
        format!("not {} to {}", text(*RANGES[place].start()), text(*RANGES[place].end()))
    };
    let [t1, v, m, t2] = [0, 2, 3, 4].map(|place| ends(place, of_tenths));
    let (a, d3) = (ends(1, |hundredths| decimal(hundredths, 100, 2)), ends(5, |metres| metres.to_string()));
    let refused = &format!(
        "vcp passing-distance: refused 24: of the manoeuvre t1 is {t1} s, a {a} km/h/s, v {v} km/h, m {m} km/h, \
         t2 {t2} s or d3 {d3} m\n"
    );
    for (option, value) in
        [("--t1", "3.5"), ("--a", "2.42"), ("--v", "429496729.6"), ("--m", "20.1"), ("--t2", "0"), ("--d3", "91")]
    {
        expect_error(&folder, &manoeuvre(option, value), 1, refused);
    }
    for (option, value, reason) in [
        ("--t1", "3.65", "--t1: \"3.65\" has more than 1 decimal"),
        ("--a", "2.255", "--a: \"2.255\" has more than 2 decimals"),
        ("--v", "-56.2", "--v: \"-56.2\" is negative"),
        ("--d3", "30.5", "--d3: \"30.5\" is not whole"),
        ("--m", "", "--m: the number is missing"),
    ] {
        expect_wrong(&folder, &manoeuvre(option, value), reason);
    }
    let all = manoeuvre("", "");
    for option in (1..all.len()).step_by(2) {
        let others = [&all[..option], &all[option + 2..]].concat();
        expect_wrong(&folder, &others, &format!("{} is missing", all[option]));
    }
}

/// With a sight distance, and without one, for which the stopping distance of the speed is taken: where the speed is refused
/// there is none, and none is needed.
#[test]
fn random_crests() {
    let mut random = Random::new(88);
    let mut tally = Tally::default();
    for round in 0..600 {
        let mut crest = Crest {
            speed: if random.once_in(20) { random.one_of(&[0, 19, 131, 9_999]) } else { random.within(20..=130) },
            drop: if random.once_in(20) { random.one_of(&[0, 3_001, 9_999]) } else { random.of_any_size(3_000) },
            sight: if random.once_in(20) { random.one_of(&[0, 801, 5_000]) } else { random.of_any_size(800) },
            eye: if random.once_in(20) { random.one_of(&[0, 50_001]) } else { random.of_any_size(50_000) },
            object: if random.once_in(20) { random.one_of(&[0, 50_001]) } else { random.of_any_size(50_000) },
        };
        let stopping = round % 4 == 0;
        if stopping {
            crest.sight = required_distance(crest.speed, 0, 0).unwrap_or(1);
        }
        let drop = decimal(crest.drop, 100, 2);
        let [eye, object] = [crest.eye, crest.object].map(|height| decimal(height, 10_000, 4));
        let [speed, sight] = [crest.speed, crest.sight].map(|number| number.to_string());
        let mut options = vec![["--speed", &speed], ["--drop", &drop], ["--eye", &eye], ["--object", &object]];
        if !stopping {
            options.push(["--sight", &sight]);
        }
        tally.count(compare(&mut random, "crest", options, crest_length(crest)));
    }
    assert!(tally.numbers() > 100, "{} numbers", tally.numbers());
    assert!([6, 15, 16, 17, 18].iter().all(|&number| tally.refused(number) > 5));
}

/// Without a sight distance it is the stopping distance of the speed on the level; eye and object are those of roads.
#[test]
fn crests_for_a_speed() {
    for speed in [20, 50, 51, 80, 90, 130] {
        for drop in [1, 100, 253, 254, 300, 600, 3_000] {
            let sight = required_distance(speed, 0, 0).expect("the speed is accepted");
            let expected = crest_length(Crest { speed, drop, sight, eye: 10_800, object: 6_000 });
            let (drop, speed, sight) = (decimal(drop, 100, 2), speed.to_string(), sight.to_string());
            let arguments = ["crest", "--speed", &speed, "--drop", &drop, "--sight", &sight];
            assert_eq!(answer(&arguments[..5]), expected, "{drop} {speed}");
            assert_eq!(answer(&arguments), expected, "{drop} {speed} {sight}");
        }
    }
    for speed in ["19", "131", "4294967376"] {
        assert_eq!(answer(&["crest", "--speed", speed, "--drop", "6"]), Err(6));
        assert_eq!(answer(&["crest", "--speed", speed, "--drop", "0", "--sight", "0"]), Err(6));
    }
}

/// The rules' cases, and what is missing or too much.
#[test]
fn lines_of_a_crest() {
    let folder = folder("crest_lines");
    expect(&folder, &["crest", "--speed", "80", "--drop", "6.00"], "156\n");
    expect(&folder, &["crest", "--speed=80", "--drop=6"], "156\n");
    expect(&folder, &["crest", "--drop", "6.00", "--sight", "130", "--speed", "80"], "156\n");
    expect(&folder, &["crest", "--speed", "80", "--drop", "3.00"], "48\n");
    let refused = "vcp crest: refused 18: no even length up to 2,000 m is adequate\n";
    expect_error(&folder, &["crest", "--speed", "80", "--drop", "30", "--sight", "800"], 1, refused);
    let refused = "vcp crest: refused 6: the speed is not 20 to 130 km/h\n";
    expect_error(&folder, &["crest", "--speed", "131", "--drop", "6"], 1, refused);
    expect_wrong(&folder, &["crest", "--drop", "6", "--sight", "130"], "--speed is missing");
    expect_wrong(&folder, &["crest", "--speed", "80", "--sight", "130"], "--drop is missing");
    for (option, reason) in
        [("--drop=6.001", "--drop: \"6.001\" has more than 2 decimals"), ("--drop=-6", "--drop: \"-6\" is negative")]
    {
        expect_wrong(&folder, &["crest", "--speed", "80", option], reason);
    }
    for (option, reason) in [
        ("--speed=80.5", "--speed: \"80.5\" is not whole"),
        ("--speed=-80", "--speed: \"-80\" is negative"),
        ("--speed=", "--speed: the number is missing"),
    ] {
        expect_wrong(&folder, &["crest", option, "--drop", "6"], reason);
    }
    expect_wrong(&folder, &["crest", "--speed", "80", "--drop", "6", "--sight", "x"], "--sight: \"x\" is no number");
    expect_wrong(&folder, &["crest", "6", "--speed", "80"], "\"6\" is one argument too many");
}

/// With a sight distance, and without one, as for a crest.
#[test]
fn random_sags() {
    let mut random = Random::new(93);
    let mut tally = Tally::default();
    for round in 0..600 {
        let mut sag = Sag {
            speed: if random.once_in(20) { random.one_of(&[0, 19, 131, 9_999]) } else { random.within(20..=130) },
            rise: if random.once_in(20) { random.one_of(&[0, 3_001, 9_999]) } else { random.of_any_size(3_000) },
            sight: if random.once_in(20) { random.one_of(&[0, 801, 5_000]) } else { random.within(1..=800) },
        };
        let stopping = round % 4 == 0;
        if stopping {
            sag.sight = required_distance(sag.speed, 0, 0).unwrap_or(1);
        }
        let rise = decimal(sag.rise, 100, 2);
        let [speed, sight] = [sag.speed, sag.sight].map(|number| number.to_string());
        let mut options = vec![["--speed", &speed], ["--rise", &rise]];
        if !stopping {
            options.push(["--sight", &sight]);
        }
        tally.count(compare(&mut random, "sag", options, sag_length(sag)));
    }
    assert!(tally.numbers() > 100, "{} numbers", tally.numbers());
    assert!([6, 15, 16, 18].iter().all(|&number| tally.refused(number) > 5));
}

/// The rules' cases, and what is missing or too much.
#[test]
fn lines_of_a_sag() {
    let folder = folder("sag_lines");
    expect(&folder, &["sag", "--speed", "80", "--rise", "6.00"], "178\n");
    expect(&folder, &["sag", "--speed=80", "--rise=6"], "178\n");
    expect(&folder, &["sag", "--rise", "6.00", "--sight", "130", "--speed", "80"], "178\n");
    expect(&folder, &["sag", "--speed", "80", "--rise", "3.00", "--sight", "130"], "70\n");
    expect(&folder, &["sag", "--speed", "80", "--rise", "2.21"], "48\n");
    let refused = "vcp sag: refused 18: no even length up to 2,000 m is adequate\n";
    expect_error(&folder, &["sag", "--speed", "80", "--rise", "30", "--sight", "800"], 1, refused);
    let refused = "vcp sag: refused 6: the speed is not 20 to 130 km/h\n";
    for speed in ["19", "131", "4294967376"] {
        expect_error(&folder, &["sag", "--speed", speed, "--rise", "6"], 1, refused);
        expect_error(&folder, &["sag", "--speed", speed, "--rise", "0", "--sight", "0"], 1, refused);
    }
    let change = "the drop or rise in grade is not 1 to 3,000 hundredths of a percent (0.01 to 30 %)";
    for rise in ["0", "30.01", "42949672.97"] {
        let refused = format!("vcp sag: refused 15: {change}\n");
        expect_error(&folder, &["sag", "--speed", "80", "--rise", rise, "--sight", "0"], 1, &refused);
        let refused = format!("vcp crest: refused 15: {change}\n");
        expect_error(&folder, &["crest", "--speed", "80", "--drop", rise, "--sight", "0"], 1, &refused);
    }
    let refused = "vcp sag: refused 16: the sight distance is not 1 to 800 m\n";
    for sight in ["0", "801", "4294967426", "99999999999999999999"] {
        expect_error(&folder, &["sag", "--speed", "80", "--rise", "6", "--sight", sight], 1, refused);
    }
    expect_wrong(&folder, &["sag", "--rise", "6", "--sight", "130"], "--speed is missing");
    expect_wrong(&folder, &["sag", "--speed", "80", "--sight", "130"], "--rise is missing");
    for (option, reason) in
        [("--rise=6.001", "--rise: \"6.001\" has more than 2 decimals"), ("--rise=-6", "--rise: \"-6\" is negative")]
    {
        expect_wrong(&folder, &["sag", "--speed", "80", option], reason);
    }
    expect_wrong(&folder, &["sag", "--speed=80.5", "--rise", "6"], "--speed: \"80.5\" is not whole");
    expect_wrong(&folder, &["sag", "--speed", "80", "--rise", "6", "--sight", "x"], "--sight: \"x\" is no number");
    for option in ["--drop", "--eye", "--object", "--grade"] {
        let reason = format!("there is no option {option}");
        expect_wrong(&folder, &["sag", "--speed", "80", "--rise", "6", option, "1"], &reason);
    }
    expect_wrong(&folder, &["crest", "--speed", "80", "--drop", "6", "--rise", "6"], "there is no option --rise");
    expect_wrong(&folder, &["sag", "6", "--speed", "80"], "\"6\" is one argument too many");
}

/// The README's rows of these commands: the call between backquotes, and behind the first colon with a number what it prints.
#[test]
fn calls_of_the_readme() {
    let readme = fs::read_to_string(root().join("README.md")).expect("the README is text");
    let mut found = Vec::new();
    for row in readme.lines().filter_map(|line| line.strip_prefix("| `vcp ")) {
        let (call, rest) = row.split_once('`').expect("a call ends with a backquote");
        let arguments: Vec<&str> = call.split(' ').collect();
        if ["distance", "passing-distance", "crest", "sag"].contains(&arguments[0]) {
            let shown = rest.split(": ").find_map(|part| part.split([';', ' ']).next()?.parse().ok());
            assert_eq!(answer(&arguments).ok(), shown, "{call}");
            found.push(arguments[0]);
        }
    }
    assert_eq!(found, ["distance", "passing-distance", "crest", "sag"]);
}
