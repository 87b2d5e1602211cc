//! `vcp report` and `vcp check`, for either lane: read back from their lines, and compared with the second calculation.

mod common;

use std::fs;
use std::path::Path;

use common::{expect, expect_error, expect_wrong, folder, root, run, run_with, share, Ended, LONG_LIST, SHORT_FILE};
use exports::Direction::{self, Falling, Rising};
use sight_tests::engines::DIRECTIONS;
use sight_tests::random::Random;
use sight_tests::reference::back;
use sight_tests::reference::distances::required_distance;
use sight_tests::reference::file::bytes;
use sight_tests::reference::marks::{marks, runs};
use sight_tests::reference::road::{heights, marking_grade, Curve, Road};
use sight_tests::reference::Answer;
use sight_tests::roads::{self, EXAMPLE};

/// The report that the README shows behind this call, of a road by this name.
fn shown_in_the_readme(call: &str, name: &str) -> String {
    let readme = fs::read_to_string(root().join("README.md")).expect("the README is there");
    let mut lines = readme.lines().skip_while(|&line| line != call).skip(1);
    let title = lines.next().expect("the report has a title").replacen("roads/three-crests.vcp", name, 1);
    let others: String = lines.take_while(|&line| line != "```").map(|line| format!("{line}\n")).collect();
    format!("{title}\n{others}")
}

/// That of the lane towards rising stations.
fn report_of_the_readme(name: &str) -> String {
    shown_in_the_readme("$ vcp report roads/three-crests.vcp", name)
}

#[test]
fn report_of_three_crests() {
    let report = report_of_the_readme("roads/three-crests.vcp");
    assert_eq!(report.lines().count(), 18);
    expect(&root(), &["report", "roads/three-crests.vcp"], &report);
    let back = shown_in_the_readme("$ vcp report --back roads/three-crests.vcp", "roads/three-crests.vcp");
    assert_eq!(back.lines().count(), 19);
    expect(&root(), &["report", "--back", "roads/three-crests.vcp"], &back);
}

/// What a report says.
#[derive(Debug, PartialEq)]
struct Said {
    direction: Direction,
    /// The station that a driver comes from, and that which the way leads to.
    stations: [u32; 2],
    speed: u32,
    purpose: char,
    /// The grade in percent, as it is written.
    grade: String,
    /// For stopping and the decision: needed, judged, lacking, not judged.
    sums: [[u32; 4]; 2],
    shares: [String; 2],
    /// The zones of each letter: first, last, length.
    zones: Vec<Vec<[u32; 3]>>,
}

const ZONES: [&str; 5] = [
    "stopping sight lacking",
    "decision sight lacking",
    "reduced decision zone",
    "stopping not judged",
    "decision not judged",
];

/// The numbers of a line; what stands around them, as units, is passed over.
fn numbers(text: &str) -> Vec<u32> {
    text.split(|letter: char| !letter.is_ascii_digit()).filter_map(|digits| digits.parse().ok()).collect()
}

/// What stands behind a grade: nothing but for the lane coming back, which drives down what rises.
fn driven(direction: Direction, grade: &str) -> &'static str {
    match (direction, grade.starts_with('-')) {
        (Rising, _) => "",
        (Falling, _) if grade == "0.00" => "",
        (Falling, up) => [" (downhill)", " (uphill)"][usize::from(up)],
    }
}

/// Reads a report under a name.
fn read_back(name: &str, report: &str) -> Said {
    let mut lines = report.lines();
    let title = lines.next().and_then(|line| line.strip_prefix(name)).expect("the name stands first");
    let parts: Vec<&str> = title.split(", ").collect();
    let [speed, purpose, grade, stretch] = parts[..] else { panic!("{title}") };
    let speed = speed.strip_suffix(" km/h").and_then(|speed| speed.parse().ok()).expect("the speed");
    let purpose = purpose.strip_prefix("decision ").expect("the purpose is named");
    let (grade, slope) =
        grade.strip_prefix("marked with grade ").and_then(|grade| grade.split_once(" %")).expect("the grade");
    let [from, to] = numbers(stretch)[..] else { panic!("{title}") };
    let (direction, word) = if stretch.ends_with("(falling)") { (Falling, "falling") } else { (Rising, "rising") };
    assert_eq!(stretch, format!("from station {from} to {to} ({word})"));
    assert_eq!(slope, driven(direction, grade), "{title}");
    let all = format!("of {} stations", to.abs_diff(from) + 1);
    assert!(lines.next() == Some("") && lines.next().is_some_and(|line| line.starts_with(&all)), "{report}");
    let sums = ["stopping sight", "decision sight"].map(|words| {
        let line = lines.next().and_then(|line| line.strip_prefix(words)).expect("a line of sums");
        let items: Vec<&str> = line.split("   ").map(str::trim).filter(|item| !item.is_empty()).collect();
        let [needed, judged, lacking, share, not_judged] = items[..] else { panic!("{line}") };
        let needed = needed.strip_suffix(" m").expect("a distance in metres");
        ([needed, judged, lacking, not_judged].map(|number| number.parse().expect("a number")), share.to_string())
    });
    assert_eq!([lines.next(), lines.next().map(|line| &line[..4])], [Some(""), Some("zone")]);
    let mut zones = vec![Vec::new(); 5];
    let mut last = 0;
    for line in lines {
        let zone = ZONES.iter().position(|zone| line.starts_with(zone)).expect("a zone in words");
        assert!(zone >= last, "the letters in their order");
        last = zone;
        match numbers(line)[..] {
            [first, last, length] => zones[zone].push([first, last, length]),
            _ => assert!(line.ends_with("   nowhere") && zones[zone].is_empty(), "{line}"),
        }
    }
    let [stopping, decision] = sums;
    Said {
        direction,
        stations: [from, to],
        speed,
        purpose: purpose.parse().expect("a letter"),
        grade: grade.to_string(),
        sums: [stopping.0, decision.0],
        shares: [stopping.1, decision.1],
        zones,
    }
}

/// A grade in percent, written another way than the command does.
fn percent(grade: i32) -> String {
    format!("{}{}.{:02}", if grade < 0 { "-" } else { "" }, grade.abs() / 100, grade.abs() % 100)
}

/// Marks of heights by the second calculation.
type Marks = fn(u32, u32, i32, &[i32], &mut [u8]) -> Answer;

/// What the second calculation says of heights, whose first is that of a station.
fn second(direction: Direction, speed: u32, purpose: u32, grade: i32, heights: &[i32], first: u32) -> Said {
    let mut marked = vec![0; heights.len()];
    let (marks, driven): (Marks, i32) = match direction {
        Rising => (marks, grade),
        Falling => (back::marks, -grade),
    };
    marks(speed, purpose, grade, heights, &mut marked).expect("the heights are marked");
    let stations = |bit: u8| marked.iter().filter(|&&mark| mark >> bit & 1 == 1).count() as u32;
    let all = heights.len() as u32;
    let sum = |purpose: u32, bit: u8| {
        let needed = required_distance(speed, purpose, driven).expect("the speed is accepted");
        [needed, all - stations(bit + 3), stations(bit), stations(bit + 3)]
    };
    let sums = [sum(0, 0), sum(purpose, 1)];
    let zone = |[one, other]: [u32; 2]| [first + one, first + other, other - one + 1];
    let (first, last) = (first, first + all - 1);
    Said {
        direction,
        stations: if direction == Rising { [first, last] } else { [last, first] },
        speed,
        purpose: char::from(b'A' + purpose as u8 - 1),
        grade: percent(grade),
        sums,
        shares: sums.map(|[_, judged, lacking, _]| share(lacking, judged)),
        zones: (0..5).map(|bit| runs(&marked, bit).into_iter().map(zone).collect()).collect(),
    }
}

fn heights_of(road: &Road) -> Vec<i32> {
    let mut list = vec![0; road.length as usize + 1];
    heights(road, &mut list).expect("the road is accepted");
    list
}

/// A road of which much is judged.
fn any_judged_road(random: &mut Random, round: u32) -> Road {
    let room = random.within(2..=300);
    let mut road = if round % 3 < 2 { roads::run_of_crests(random, room) } else { roads::any_road(random) };
    road.length = (road.length + random.within(0..=100)).min(8_000);
    road.speed = random.one_of(&[20, 25, 30, 40, 130]);
    road
}

/// What is added to a call for a direction.
fn option(direction: Direction) -> &'static [&'static str] {
    match direction {
        Rising => &[],
        Falling => &["--back"],
    }
}

/// The grade that a road is marked with in a direction.
fn grade_in(direction: Direction, road: &Road) -> i32 {
    match direction {
        Rising => marking_grade(road),
        Falling => back::marking_grade(road),
    }
}

/// Compares a road's report for a direction with the second calculation, and answers it and how many zones it has.
fn compare(folder: &Path, road: &Road, direction: Direction) -> (String, usize) {
    let ended = run_with(folder, &[&["report", "-"], option(direction)].concat(), &bytes(road)).0;
    assert_eq!((ended.errors.as_str(), ended.status), ("", 0), "{road:?}");
    let said = read_back("-: ", &ended.output);
    let (speed, purpose) = (road.speed.into(), road.purpose.into());
    let expected = second(direction, speed, purpose, grade_in(direction, road), &heights_of(road), 0);
    assert_eq!(said, expected, "{road:?}");
    // Columns line up: the lines of zones that have numbers end in the same column.
    let ends: Vec<usize> = ended.output.lines().skip(6).filter(|line| line.ends_with(" m")).map(str::len).collect();
    assert!(ends.windows(2).all(|pair| pair[0] == pair[1]), "{}", ended.output);
    let zones = said.zones.iter().map(Vec::len).sum();
    assert_eq!(ends.len(), zones, "{}", ended.output);
    (ended.output, zones)
}

#[test]
fn random_roads() {
    let folder = folder("report_random");
    let mut random = Random::new(85);
    let (mut zones, mut falling) = (0, 0);
    for round in 0..600 {
        let road = any_judged_road(&mut random, round);
        zones += compare(&folder, &road, Rising).1;
        falling += u32::from(marking_grade(&road) < 0);
    }
    assert!(zones > 1_000, "{zones} zones");
    assert!((400..590).contains(&falling), "{falling} of 600 roads fall");
}

/// The lane coming back.
#[test]
fn random_roads_back() {
    let folder = folder("report_back");
    let mut random = Random::new(193);
    let (mut zones, mut rising, mut same) = (0, 0, 0);
    for round in 0..400 {
        let road = any_judged_road(&mut random, round);
        let (report, many) = compare(&folder, &road, Falling);
        zones += many;
        rising += u32::from(back::marking_grade(&road) > 0);
        let sums = |report: &str| report.lines().skip(1).map(str::to_string).collect::<Vec<_>>();
        same += u32::from(sums(&report) == sums(&run_with(&folder, &["report", "-"], &bytes(&road)).0.output));
    }
    assert!(zones > 600, "{zones} zones");
    assert!((250..395).contains(&rising), "{rising} of 400 roads rise");
    assert!(same < 40, "{same} of 400 reports are the same both ways");
}

/// Roads over 8,000 m, and their heights as a survey.
#[test]
fn long_roads() {
    let folder = folder("report_long");
    let mut random = Random::new(124);
    let mut zones = 0;
    for round in 0..12 {
        let direction = DIRECTIONS[round / 3 % 2];
        let far = roads::steeper(roads::far_run_of_crests(&mut random, 300));
        let road = if round % 3 == 0 { roads::any_long_road(&mut random) } else { far };
        let road = Road { speed: random.one_of(&[20, 25, 30]), ..road };
        let (report, many) = compare(&folder, &road, direction);
        zones += many;
        let survey = run_with(&folder, &["heights", "-"], &bytes(&road)).0.output;
        let [speed, purpose] = [road.speed, road.purpose].map(|number| number.to_string());
        let grade = percent(grade_in(direction, &road));
        let arguments = ["check", "-", "--speed", &speed, "--purpose", &purpose, "--grade", &grade];
        let ended = run_with(&folder, &[&arguments, option(direction)].concat(), survey.as_bytes()).0;
        assert_eq!(ended, Ended { output: report, errors: String::new(), status: 0 }, "{road:?}");
    }
    assert!(zones > 60, "{zones} zones");
}

/// A road of either version has the same report.
#[test]
fn both_versions() {
    let folder = folder("report_versions");
    let mut random = Random::new(125);
    for round in 0..60 {
        let road = any_judged_road(&mut random, round);
        let [first, second] = [1, 2].map(|version| bytes(&roads::in_version(version, &road)));
        for direction in DIRECTIONS {
            let call = [&["report", "-"], option(direction)].concat();
            assert_eq!(run_with(&folder, &call, &first), run_with(&folder, &call, &second));
        }
    }
}

/// Several files: a report each with a line between, and a refused one has its line.
#[test]
fn several_files() {
    let folder = folder("report_several");
    fs::copy(root().join("roads/three-crests.vcp"), folder.join("a.vcp")).unwrap();
    fs::write(folder.join("b.vcp"), &EXAMPLE[..15]).unwrap();
    let ended = run(&folder, &["report", "b.vcp", "a.vcp", "b.vcp", "a.vcp"]);
    let errors = format!("b.vcp: refused 1: {SHORT_FILE}\n").repeat(2);
    let report = report_of_the_readme("a.vcp");
    assert_eq!(ended, Ended { output: format!("{report}\n{report}"), errors: errors.clone(), status: 1 });
    let ended = run(&folder, &["report", "b.vcp", "a.vcp", "--back", "b.vcp", "a.vcp"]);
    let report = shown_in_the_readme("$ vcp report --back roads/three-crests.vcp", "a.vcp");
    assert_eq!(ended, Ended { output: format!("{report}\n{report}"), errors, status: 1 });
}

/// The heights that `vcp heights` writes are judged as their road is, on the road's grade, whole or from any station on.
#[test]
fn check_of_a_road_as_built() {
    let folder = folder("check_random");
    let mut random = Random::new(86);
    for round in 0..200 {
        let road = any_judged_road(&mut random, round);
        let from = random.within(0..=road.length);
        let from = if round % 2 == 0 { 0 } else { from };
        let [speed, purpose, from_word] =
            [road.speed.into(), road.purpose.into(), from].map(|number| number.to_string());
        let survey = run_with(&folder, &["heights", "-", "--from", &from_word], &bytes(&road)).0.output;
        for direction in DIRECTIONS {
            let grade = grade_in(direction, &road);
            let grade_word = percent(grade);
            let arguments = ["check", "-", "--speed", &speed, "--purpose", &purpose, "--grade", &grade_word];
            let ended = run_with(&folder, &[&arguments, option(direction)].concat(), survey.as_bytes()).0;
            assert_eq!((ended.errors.as_str(), ended.status), ("", 0), "{road:?}");
            let heights = &heights_of(&road)[from as usize..];
            let expected = second(direction, road.speed.into(), road.purpose.into(), grade, heights, from);
            assert_eq!(read_back("-: ", &ended.output), expected, "{road:?}");
            if from == 0 {
                let report = [&["report", "-"], option(direction)].concat();
                assert_eq!(ended.output, run_with(&folder, &report, &bytes(&road)).0.output);
            }
        }
    }
}

/// Any surveyed heights, also those that no profile has, on any grade; on the level where none is given.
#[test]
fn check_of_random_heights() {
    let folder = folder("check_heights");
    let mut random = Random::new(87);
    for round in 0..200 {
        let many = random.within(1..=200) as usize;
        let size = random.of_any_size(1 << 30) as i32;
        let heights: Vec<i32> = (0..many).map(|_| random.signed_within(-size..=size)).collect();
        let first = random.of_any_size(1_000_000);
        let row = |(place, height): (u32, &i32)| {
            let sign = if *height < 0 { "-" } else { "" };
            let (whole, rest) = (height.unsigned_abs() / 10_000, height.unsigned_abs() % 10_000);
            format!("{},{sign}{whole}.{rest:04}\n", first + place)
        };
        let survey: String = (0..).zip(&heights).map(row).collect();
        let speed = random.one_of(&[20, 30, 40]);
        let purpose = random.within(1..=5);
        let letter = ["A", "b", "decision-C", "Decision-d", "5"][purpose as usize - 1];
        let grade = if round % 4 == 0 { 0 } else { random.signed_within(-1_500..=1_500) };
        let (speed_word, given_grade) = (speed.to_string(), format!("--grade={}", percent(grade)));
        let mut arguments = vec!["check", "--purpose", letter, "-", "--speed", &speed_word];
        if round % 4 > 0 {
            arguments.push(&given_grade);
        }
        let direction = random.one_of(&DIRECTIONS);
        arguments.extend(option(direction));
        let ended = run_with(&folder, &arguments, survey.as_bytes()).0;
        assert_eq!((ended.errors.as_str(), ended.status), ("", 0), "{survey}");
        assert_eq!(
            read_back("-: ", &ended.output),
            second(direction, speed, purpose, grade, &heights, first),
            "{survey}"
        );
    }
}

/// Thousands of zones, one as long as all of them, and tens of thousands: ridges every so many metres.
#[test]
fn check_of_many_zones() {
    let folder = folder("check_zones");
    // A ridge every so many metres, and how many zones lack stopping sight, or how long one is, at least.
    for (every, ridge, zones, metres) in [(40, 30_000, 2_400, 1), (2, 30_000, 1, 99_981), (2, 6_500, 49_990, 1)] {
        let heights: Vec<i32> = (0..100_001).map(|station| if station % every == 0 { ridge } else { 0 }).collect();
        let height = |height: &i32| format!("{}.{:04}", height / 10_000, height % 10_000);
        let survey: String = (0..).zip(&heights).map(|(station, own)| format!("{station},{}\n", height(own))).collect();
        let ended = run_with(&folder, &["check", "-", "--speed", "20", "--purpose", "1"], survey.as_bytes()).0;
        let said = read_back("-: ", &ended.output);
        let lengths: Vec<u32> = said.zones[0].iter().map(|&[_, _, length]| length).collect();
        assert!(lengths.len() >= zones && lengths.iter().any(|&length| length >= metres), "{} zones", lengths.len());
        assert_eq!(said, second(Rising, 20, 1, 0, &heights, 0));
    }
}

/// Each way of writing the same heights.
#[test]
fn check_of_the_same_heights_written_otherwise() {
    let folder = folder("check_forms");
    let plain = "station_m,height_m\n0,1.5000\n1,-0.5000\n2,0.0000\n";
    let arguments = ["check", "-", "--speed", "20", "--purpose", "1"];
    let expected = run_with(&folder, &arguments, plain.as_bytes()).0;
    assert_eq!((expected.errors.as_str(), expected.status), ("", 0));
    for text in [
        "0,1.5000\n1,-0.5000\n2,0.0000\n",
        "0,1.5\n1,-0.5\n2,0",
        "\u{feff}station_m,height_m\r\n0,1.5000\r\n1,-0.5000\r\n2,0.0000\r\n\r\n",
        "station_m,height_m\n\n 0 , 1.5\n\n1,-0.50\n2,-0\n\n",
    ] {
        assert_eq!(run_with(&folder, &arguments, text.as_bytes()).0, expected, "{text:?}");
    }
}

/// The last station that can be counted, and the one behind it.
#[test]
fn check_of_the_greatest_stations() {
    let folder = folder("check_greatest");
    let arguments = ["check", "-", "--speed", "20", "--purpose", "1"];
    let ended = run_with(&folder, &arguments, b"4294967295,0").0;
    let title = "-: 20 km/h, decision A, marked with grade 0.00 %, from station 4294967295 to 4294967295 (rising)\n";
    assert!(ended.output.starts_with(title), "{ended:?}");
    let ended = run_with(&folder, &[&arguments[..], &["--back"]].concat(), b"4294967294,0\n4294967295,0").0;
    let title = "-: 20 km/h, decision A, marked with grade 0.00 %, from station 4294967295 to 4294967294 (falling)\n";
    assert!(ended.output.starts_with(title), "{ended:?}");
    let ended = run_with(&folder, &arguments, b"4294967295,0\n4294967296,0").0;
    assert_eq!(ended.errors, "-:2: station: \"4294967296\" is out of range\n");
}

/// Each fault of a survey is an error with its line.
#[test]
fn faults_of_a_survey() {
    let folder = folder("check_faults");
    let good: Vec<String> = (0..50).map(|station| format!("{station},0.0")).collect();
    let no_line = "a line has a station, a comma and its height";
    for (place, line, reason) in [
        (20, "21,0.0", "station 20 is missing before 21"),
        (20, "23,0.0", "stations 20 to 22 are missing before 23"),
        (20, "19,0.0", "station 19 stands twice"),
        (20, "0,0.0", "station 0 stands twice"),
        (20, "20,0.00001", "height: \"0.00001\" has more than 4 decimals"),
        (20, "20,0,0", "height: \"0,0\" is no number"),
        (20, "20;0.0", no_line),
        (20, "20", no_line),
        (20, "20,", "height: the number is missing"),
        (20, ",0.0", "station: the number is missing"),
        (20, "20.0,0.0", "station: \"20.0\" is not whole"),
        (20, "-20,0.0", "station: \"-20\" is out of range"),
        (20, "20,214748.3648", "height: \"214748.3648\" is out of range"),
        (20, "20,1e3", "height: \"1e3\" is no number"),
        (20, "station_m,height_m", "station: \"station_m\" is no number"),
        (0, "metre,height", "station: \"metre\" is no number"),
        (49, "50,0.0", "station 49 is missing before 50"),
        (1, "\0", no_line),
        (1, "\u{feff}1,0.0", "station: \"\\u{feff}1\" is no number"),
    ] {
        let mut lines = good.clone();
        lines[place] = line.to_string();
        fs::write(folder.join("a.csv"), lines.join("\n")).unwrap();
        let error = format!("a.csv:{}: {reason}\n", place + 1);
        expect_error(&folder, &["check", "a.csv", "--speed", "20", "--purpose", "1"], 2, &error);
    }
    fs::write(folder.join("a.csv"), "\n".repeat(1_000_020)).unwrap();
    let error = "a.csv:1000011: there are more than 1000010 lines\n";
    expect_error(&folder, &["check", "a.csv", "--speed", "20", "--purpose", "1"], 2, error);
    let first_after = "7,0\n6,0\n";
    fs::write(folder.join("a.csv"), first_after).unwrap();
    let error = "a.csv:2: station 6 stands after station 7\n";
    expect_error(&folder, &["check", "a.csv", "--speed", "20", "--purpose", "1"], 2, error);
    fs::write(folder.join("a.csv"), format!("0,0\n1,{}\n", "1".repeat(1_000))).unwrap();
    let error = "a.csv:2: the line has 1000 bytes or more\n";
    expect_error(&folder, &["check", "a.csv", "--speed", "20", "--purpose", "1"], 2, error);
}

/// The proved functions judge the speed, the purpose, the grade and the number of heights.
#[test]
fn refused_surveys() {
    let folder = folder("check_refused");
    let survey = |many: u32| (0..many).map(|station| format!("{station},0\n")).collect::<String>();
    let list = &format!("a.csv: refused 19: {LONG_LIST}\n");
    let purpose = "a.csv: refused 7: the purpose is not 0 to 5, or that of a road is not 1 to 5\n";
    let grade = "a.csv: refused 10: a grade is not -1,500 to 1,500 hundredths of a percent (-15 to 15 %)\n";
    for (many, speed, word, percent, line) in [
        (3, "19", "6", "16", "a.csv: refused 6: the speed is not 20 to 130 km/h\n"),
        (3, "20", "stopping", "16", purpose),
        (3, "20", "6", "-6", purpose),
        (3, "20", "1", "-15.01", grade),
        (0, "20", "5", "15.01", grade),
        (3, "20", "5", "99999999999999999999", grade),
        (3, "20", "5", "-99999999999999999999", grade),
        (0, "20", "1", "-15.00", list),
        (100_002, "20", "1", "15", list),
        (110_000, "20", "1", "0", list),
    ] {
        fs::write(folder.join("a.csv"), survey(many)).unwrap();
        let arguments = ["check", "a.csv", "--speed", speed, "--purpose", word, "--grade", percent];
        expect_error(&folder, &arguments, 1, line);
        expect_error(&folder, &[&arguments[..], &["--back"]].concat(), 1, line);
    }
    fs::write(folder.join("a.csv"), survey(100_001)).unwrap();
    assert_eq!(run(&folder, &["check", "a.csv", "--speed", "20", "--purpose", "1"]).status, 0);
    expect_wrong(&folder, &["check", "a.csv", "--speed", "20"], "--purpose is missing");
    expect_wrong(&folder, &["check", "a.csv", "--purpose", "1"], "--speed is missing");
    let reason = "--purpose: \"F\" is no purpose: 0 to 5, stopping, or A to E";
    expect_wrong(&folder, &["check", "a.csv", "--speed", "20", "--purpose", "F"], reason);
    let arguments = ["check", "none.csv", "--speed", "20", "--purpose", "1", "--grade", "-6.005"];
    expect_wrong(&folder, &arguments, "--grade: \"-6.005\" has more than 2 decimals");
    expect_wrong(&folder, &["check", "a.csv", "--speed", "-20", "--purpose", "1"], "--speed: \"-20\" is negative");
}

/// The grade of a road is the least of its grades, also where it is the last, and of the lane coming back the greatest, by the sign
/// that it has for rising stations; neither lane has one that is driven uphill.
#[test]
fn grades_of_roads() {
    let folder = folder("report_grades");
    for (first, last, grade, of_back) in [
        (0, 0, "0.00", "0.00"),
        (300, 1, "0.00", "3.00"),
        (-5, 0, "-0.05", "0.00"),
        (-300, -1, "-3.00", "0.00"),
        (1_500, -1_234, "-12.34", "15.00"),
        (-1_500, 1_234, "-15.00", "12.34"),
    ] {
        let curves = vec![Curve { pvi: 100, length: 2, grade_out: last }];
        let version = 1;
        let road = Road { version, speed: 20, purpose: 1, length: 300, start_height: 0, first_grade: first, curves };
        for (direction, grade, stretch) in
            [(Rising, grade, "from station 0 to 300 (rising)"), (Falling, of_back, "from station 300 to 0 (falling)")]
        {
            let ended = run_with(&folder, &[&["report", "-"], option(direction)].concat(), &bytes(&road)).0;
            let slope = if direction == Falling && grade != "0.00" { " (downhill)" } else { "" };
            let title = format!("-: 20 km/h, decision A, marked with grade {grade} %{slope}, {stretch}\n");
            assert!(ended.output.starts_with(&title), "{ended:?}");
        }
    }
}

/// The zones of the lane coming back ascend by station, as those of the other do: by hand, on a ridge 100 m from the road's start.
#[test]
fn zones_of_the_lane_coming_back() {
    let folder = folder("check_back");
    // Up by 15 % and down again, in hundredths of a metre above the lowest end, which is 15 m below the start.
    let height = |station: i32| 3_000 - 15 * (station - 100).abs();
    let row = |station: i32| format!("{station},{}.{:02}\n", height(station) / 100, height(station) % 100);
    let survey: String = (0..=300).map(row).collect();
    let arguments = ["check", "-", "--speed", "20", "--purpose", "A", "--back"];
    let ended = run_with(&folder, &arguments, survey.as_bytes()).0;
    let zones = "\
zone                     from    to   length
stopping sight lacking    105   117     13 m
decision sight lacking    104   122     19 m
reduced decision zone     104   104      1 m
reduced decision zone     118   122      5 m
stopping not judged         0    19     20 m
decision not judged         0    24     25 m
";
    assert!(ended.output.ends_with(zones), "{}", ended.output);
}

/// It is an option without a value, which no other command of a report has.
#[test]
fn wrong_options() {
    let folder = folder("report_wrong");
    expect_wrong(&folder, &["report", "a.vcp", "--back", "--back"], "--back stands twice");
    expect_wrong(&folder, &["report", "a.vcp", "--back=1"], "--back takes no value");
    expect_wrong(&folder, &["report", "a.vcp", "--both-lanes"], "there is no option --both-lanes");
    for arguments in [&["list", "a.vcp"][..], &["passing", "a.vcp", "585"], &["heights", "a.vcp"]] {
        expect_wrong(&folder, &[arguments, &["--back"]].concat(), "there is no option --back");
    }
}
