//! Roads as texts, against the second calculation's roads and road files.

use std::fs;
use std::path::Path;

use roadtext::{road_file, road_text, Fault};
use sight_tests::random::Random;
use sight_tests::reference::file::{bytes, read};
use sight_tests::reference::road::{verdict, Curve, Road};
use sight_tests::roads::{self, OF_ROAD, REFUSALS};
use sight_tests::tally::Tally;

/// A number of hundredths or of ten-thousandths in decimals, with some of the zeros that may be left out.
fn decimal(random: &mut Random, number: i64, decimals: usize) -> String {
    let sign = if number < 0 { "-" } else { "" };
    let unit = 10_u64.pow(decimals as u32);
    let (whole, fraction) = (number.unsigned_abs() / unit, number.unsigned_abs() % unit);
    let mut text = format!("{sign}{whole}.{fraction:0decimals$}");
    while text.ends_with('0') && !text.ends_with(".0") && random.once_in(2) {
        text.pop();
    }
    if text.ends_with(".0") && random.once_in(2) {
        text.truncate(text.len() - 2);
    }
    text
}

/// A text, and the lines where version, speed, purpose, length, start height and first grade stand, and those of the curves.
struct Written {
    text: String,
    head: [usize; 6],
    curves: Vec<usize>,
}

/// Writes a road in its own way: the lines in any order that keeps that of the curves, with other lines between. Version 1 is
/// said or not.
fn write(random: &mut Random, road: &Road) -> Written {
    let head = [
        format!("version {}", road.version),
        format!("speed {} km/h", road.speed),
        format!("purpose {}", road.purpose),
        format!("length {} m", road.length),
        format!("start height {} m", decimal(random, road.start_height.into(), 4)),
        format!("first grade {} %", decimal(random, road.first_grade.into(), 2)),
    ];
    let curves = road.curves.iter().map(|curve| {
        let grade_out = decimal(random, curve.grade_out.into(), 2);
        format!("curve {} m, {} m, {grade_out} %", curve.pvi, curve.length)
    });
    let curves: Vec<String> = curves.collect();
    let unsaid = usize::from(road.version == 1 && random.once_in(2));
    let mut order: Vec<(usize, String)> = head.into_iter().enumerate().skip(unsaid).collect();
    for place in (1..order.len()).rev() {
        order.swap(place, random.within(0..=place as u32) as usize);
    }
    let mut written = Written { text: String::new(), head: [0; 6], curves: vec![] };
    let mut line = 1;
    let (mut head, mut curves) = (order.into_iter().peekable(), curves.into_iter().peekable());
    while head.peek().is_some() || curves.peek().is_some() {
        match random.within(0..=9) {
            0 => written.text += random.one_of(&["\n", "# speed 10 km/h\n", " \t# version 2\n", "\r\n"]),
            1..=5 => {
                let Some((place, item)) = head.next() else { continue };
                written.head[place] = line;
                written.text += &spaced(random, &item);
            }
            _ => {
                let Some(item) = curves.next() else { continue };
                written.curves.push(line);
                written.text += &spaced(random, &item);
            }
        }
        line += 1;
    }
    written
}

/// A line with other spaces, and now and then a comment.
fn spaced(random: &mut Random, item: &str) -> String {
    let space = random.one_of(&[" ", "  ", "\t"]);
    let end = random.one_of(&["\n", "\r\n", " \n", "# curve 1 m\n", " # \u{fffd} 5 %\n"]);
    let begin = random.one_of(&["", "", " ", "\t"]);
    format!("{begin}{}{end}", item.replace(' ', space))
}

/// The roads that ship. A user may put others beside them.
#[test]
fn texts_beside_the_road_files() {
    let folder = Path::new(env!("CARGO_MANIFEST_DIR")).join("../../roads");
    for name in ["example", "level", "three-crests", "valley"] {
        let text = fs::read_to_string(folder.join(name).with_extension("txt")).expect("a text");
        let file = fs::read(folder.join(name).with_extension("vcp")).expect("a road file stands beside its text");
        assert_eq!(road_file(&text).as_ref(), Ok(&file), "{name}");
        let items = |text: &str| -> Vec<String> {
            let lines = text.lines().map(|line| line.split('#').next().unwrap_or_default().trim_end().to_string());
            lines.filter(|line| !line.is_empty()).collect()
        };
        assert_eq!(items(&road_text(&file).expect("the road is accepted")), items(&text), "{name}");
    }
}

/// From bytes to text and back nothing is lost; and a text of another hand is read as it stands.
#[test]
fn random_roads_there_and_back() {
    let mut random = Random::new(51);
    let (mut curves, mut negative, mut fractions, mut versions) = (0, 0, 0, [0; 3]);
    for round in 0..6_000 {
        let any = if round % 6 == 0 { roads::any_long_road } else { roads::any_road };
        let road = any(&mut random);
        let file = bytes(&road);
        let text = road_text(&file).expect("the road is accepted");
        assert_eq!(road_file(&text), Ok(file.clone()), "{text}");
        let Written { text, .. } = write(&mut random, &road);
        assert_eq!(road_file(&text), Ok(file), "{text}");
        curves += road.curves.len();
        negative += usize::from(road.start_height < 0);
        fractions += usize::from(road.start_height % 10_000 != 0);
        versions[usize::from(road.version)] += 1;
    }
    assert!(curves > 40_000 && negative > 1_000 && fractions > 2_000, "{curves}, {negative}, {fractions}");
    assert!(versions[1] > 2_000 && versions[2] > 2_000, "{versions:?}");
}

/// Every grade, and every small height, where the sign and the zeros matter.
#[test]
fn every_grade_and_small_heights() {
    let mut random = Random::new(52);
    let mut road = Road {
        version: 1,
        speed: 80,
        purpose: 1,
        length: 2,
        start_height: 0,
        first_grade: 0,
        curves: vec![Curve { pvi: 1, length: 2, grade_out: 0 }],
    };
    for number in -1_500..=1_500 {
        road.version = random.one_of(&[1, 2]);
        road.first_grade = number;
        road.curves[0].grade_out = -number;
        road.start_height = i32::from(number) * random.one_of(&[1, 10, 100, 1_000, 6_666]);
        let file = bytes(&road);
        let text = road_text(&file).expect("the road is accepted");
        let hundredths =
            format!("{}{}.{:02}", if number < 0 { "-" } else { "" }, number.abs() / 100, number.abs() % 100);
        assert!(text.contains(&format!("\nfirst grade {hundredths} %\n")), "{text}");
        assert_eq!(road_file(&text), Ok(file.clone()), "{text}");
        assert_eq!(road_file(&write(&mut random, &road).text), Ok(file), "{road:?}");
    }
}

/// The example of the format in the package's first comment is a road.
#[test]
fn example_of_the_format() {
    let comment = include_str!("../src/lib.rs").lines().map_while(|line| line.strip_prefix("//!"));
    let example = comment.skip_while(|line| *line != " ```text").skip(1).take_while(|line| *line != " ```");
    let text = example.collect::<Vec<_>>().join("\n");
    let road = Road {
        version: 1,
        speed: 90,
        purpose: 1,
        length: 1_500,
        start_height: 1_025_000,
        first_grade: 400,
        curves: vec![Curve { pvi: 480, length: 60, grade_out: -200 }, Curve { pvi: 900, length: 0, grade_out: -250 }],
    };
    assert_eq!(road_file(&text), Ok(bytes(&road)));
}

/// The text of a road, byte by byte.
#[test]
fn text_of_a_road() {
    let road = Road {
        version: 1,
        speed: 130,
        purpose: 5,
        length: 8_000,
        start_height: -50,
        first_grade: -5,
        curves: vec![
            Curve { pvi: 1_000, length: 2_000, grade_out: 1_500 },
            Curve { pvi: 2_000, length: 0, grade_out: 1_450 },
            Curve { pvi: 2_002, length: 4, grade_out: -1_010 },
        ],
    };
    let text = "\
speed 130 km/h
purpose 5
length 8000 m
start height -0.005 m
first grade -0.05 %
# PVI, length, grade out
curve 1000 m, 2000 m, 15.00 %
curve 2000 m, 0 m, 14.50 %
curve 2002 m, 4 m, -10.10 %
";
    assert_eq!(road_text(&bytes(&road)).as_deref(), Ok(text));
    let in_version_2 = format!("version 2\n{text}");
    assert_eq!(road_text(&bytes(&roads::in_version(2, &road))), Ok(in_version_2.clone()));
    let farther = in_version_2.replace("8000", "100000").replace("2002 m", "99998 m");
    let mut long = Road { version: 2, length: 100_000, ..road.clone() };
    long.curves[2].pvi = 99_998;
    assert_eq!(road_text(&bytes(&long)), Ok(farther));
    for (start_height, height) in [(0, "0.00"), (1, "0.0001"), (-10_000_000, "-1000.00"), (89_999_990, "8999.999")] {
        let text = road_text(&bytes(&Road { start_height, ..road.clone() })).expect("the road is accepted");
        assert!(text.contains(&format!("\nstart height {height} m\n")), "{text}");
    }
}

const GOOD: [&str; 7] = [
    "speed 80 km/h",
    "purpose 1",
    "length 1000 m",
    "start height 0 m",
    "first grade 3 %",
    "curve 100 m, 20 m, -3 %",
    "curve 200 m, 0 m, -2.5 %",
];

const NAMES: [&str; 5] = ["speed", "purpose", "length", "start height", "first grade"];

fn fault(line: usize, reason: &str) -> Fault {
    Fault { line, reason: reason.to_string(), refused: reason.starts_with("refused ") }
}

/// The good text with one line changed has this fault, on that line, and no other.
fn expect(line: usize, text: &str, reason: &str) {
    let mut lines = GOOD;
    lines[line - 1] = text;
    assert_eq!(road_file(&lines.join("\n")), Err(vec![fault(line, reason)]), "{text}");
}

#[test]
fn unknown_words() {
    let known = "a line begins with version, speed, purpose, length, start height, first grade or curve";
    for text in
        ["kurve 1 m, 0 m, 0 %", "version2", "curves 1 m, 0 m, 0 %", "Curve 1 m, 0 m, 0 %", "start 1 m", "90", "+"]
    {
        expect(6, text, &format!("unknown words in \"{text}\": {known}"));
    }
    expect(6, "  start\theight:\u{7}1 m # x", &format!("unknown words in \"start height:\\u{{7}}1 m\": {known}"));
}

/// A byte-order mark is passed over at the front of the text, once, and nowhere else.
#[test]
fn byte_order_marks() {
    let good = GOOD.join("\n");
    let file = road_file(&good).expect("a good text");
    assert_eq!(road_file(&format!("\u{feff}{good}")), Ok(file));
    for (line, text) in [(1, format!("\u{feff}\u{feff}{good}")), (2, format!("\n\u{feff}{good}"))] {
        let faults = road_file(&text).expect_err("an unknown word");
        assert!(faults[0].line == line && faults[0].reason.starts_with("unknown words"), "{faults:?}");
    }
}

#[test]
fn repeated_lines() {
    for (first, (text, name)) in (1..).zip(GOOD.into_iter().zip(NAMES)) {
        expect(7, text, &format!("{name} stands on line {first} already"));
    }
    // The first of two versions is the text's, whatever the second says: 70,000 m fit version 2 alone.
    for (first, second) in [("version 2", "version 2"), ("version 1", "version 2"), ("version 2", "version 1")] {
        let of = |length: &str| road_file(&format!("{first}\n{}\n{second}", GOOD.join("\n").replace("1000", length)));
        let twice = fault(9, "version stands on line 1 already");
        assert_eq!(of("1000"), Err(vec![twice.clone()]));
        assert_eq!(of("70000").map_err(|faults| faults.len()), Err(if first == "version 1" { 2 } else { 1 }));
        assert_eq!(of("70000").map_err(|faults| faults.last().cloned()), Err(Some(twice)));
    }
}

#[test]
fn numbers_that_are_none() {
    for number in
        ["ten", "+8", "--8", "-", "8O", "8-", "٣", "−3", "1,000", "1.", ".5", "1.2.3", "1e3", "0x50", "8_0", "8m"]
    {
        expect(1, &format!("speed {number} km/h"), &format!("speed: {number:?} is no number"));
        expect(2, &format!("purpose {number}"), &format!("purpose: {number:?} is no number"));
        expect(4, &format!("start height {number} m"), &format!("start height: {number:?} is no number"));
        expect(7, &format!("version {number}"), &format!("version: {number:?} is no number"));
    }
    expect(1, "speed", "speed: the number is missing");
    expect(1, "speed km/h", "speed: \"km/h\" is no number");
    expect(6, "curve 100 m,, -3 %", "curve length: the number is missing");
    expect(6, "curve 100 m, 20 m, three %", "grade out: \"three\" is no number");
}

#[test]
fn too_many_decimals() {
    expect(1, "speed 80.0 km/h", "speed: \"80.0\" is not whole");
    expect(7, "version 1.0", "version: \"1.0\" is not whole");
    expect(3, "length 1000.5 m", "length: \"1000.5\" is not whole");
    expect(4, "start height 0.00000 m", "start height: \"0.00000\" has more than 4 decimals");
    expect(5, "first grade -3.001 %", "first grade: \"-3.001\" has more than 2 decimals");
    expect(6, "curve 100.0 m, 20 m, -3 %", "PVI: \"100.0\" is not whole");
    expect(6, "curve 100 m, 2.5 m, -3 %", "curve length: \"2.5\" is not whole");
    expect(6, "curve 100 m, 20 m, 3.333 %", "grade out: \"3.333\" has more than 2 decimals");
}

#[test]
fn wrong_units() {
    expect(1, "speed 80", "speed: the unit km/h is missing");
    expect(1, "speed 80 mph", "speed: the unit is km/h, not \"mph\"");
    expect(1, "speed 80 km/h 3", "speed: the unit is km/h, not \"km/h 3\"");
    expect(2, "purpose 1 m", "purpose: \"m\" follows a number that has no unit");
    expect(7, "version 2 m", "version: \"m\" follows a number that has no unit");
    expect(3, "length 1 km", "length: the unit is m, not \"km\"");
    expect(5, "first grade 3", "first grade: the unit % is missing");
    expect(6, "curve 100 m, 20, -3 %", "curve length: the unit m is missing");
    expect(6, "curve 100 m, 20 m, -3 m", "grade out: the unit is %, not \"m\"");
}

/// A number that the file has no room for is refused by the room that it has. A road's length and a PVI have more of it in version 2,
/// and who has too little in version 1 is told so.
#[test]
fn numbers_that_do_not_fit() {
    let any = "the road file";
    let [first, second] = [1, 2].map(|version| format!("a road file of version {version}"));
    let byte = ["0", "255", "-1", "256"];
    let two_bytes = ["0", "65535", "-1", "65536"];
    let four_bytes = ["0", "4294967295", "-1", "4294967296"];
    let height = ["-214748.3648", "214748.3647", "-214748.3649", "214748.3648"];
    let grade = ["-327.68", "327.67", "-327.69", "327.68"];
    for (line, name, begin, end, [in_first, in_second], [first_room, second_room]) in [
        (1, "speed", "speed ", " km/h", [any; 2], [byte; 2]),
        (2, "purpose", "purpose ", "", [any; 2], [byte; 2]),
        (3, "length", "length ", " m", [&first, &second], [two_bytes, four_bytes]),
        (4, "start height", "start height ", " m", [any; 2], [height; 2]),
        (5, "first grade", "first grade ", " %", [any; 2], [grade; 2]),
        (6, "PVI", "curve ", " m, 20 m, -3 %", [&first, &second], [two_bytes, four_bytes]),
        (6, "curve length", "curve 100 m, ", " m, -3 %", [any; 2], [two_bytes; 2]),
        (6, "grade out", "curve 100 m, 20 m, ", " %", [any; 2], [grade; 2]),
    ] {
        for (version, file, [least, greatest, below, above]) in
            [("", in_first, first_room), ("version 1", in_first, first_room), ("version 2", in_second, second_room)]
        {
            let with = |number: &str| {
                let mut lines = GOOD.map(str::to_string);
                lines[line - 1] = format!("{begin}{number}{end}");
                format!("{}\n{version}", lines.join("\n"))
            };
            for number in [below, above, "-9223372036854775809", "99999999999999999999999999999999"] {
                let fits = if file == first && number == above { "; one of version 2 has more" } else { "" };
                let room = format!("which has room for {least} to {greatest}{fits}");
                let reason = format!("{name}: {number:?} does not fit {file}, {room}");
                assert_eq!(road_file(&with(number)), Err(vec![fault(line, &reason)]));
            }
            // What the file has room for is left to the proved reader.
            for number in [least, greatest] {
                let faults = road_file(&with(number)).err().unwrap_or_default();
                assert!(faults.iter().all(|fault| fault.refused), "{faults:?}");
            }
        }
    }
}

/// The version stands anywhere, and where it cannot be read or is none no other line is blamed for it.
#[test]
fn versions() {
    let good = road_file(&GOOD.join("\n")).expect("a good text");
    let of = |version: &str, length: &str, place: usize| {
        let mut lines = GOOD.map(|line| line.replace("1000", length)).to_vec();
        lines.insert(place, version.to_string());
        road_file(&lines.join("\n"))
    };
    for place in 0..=GOOD.len() {
        assert_eq!(of("version 1", "1000", place), Ok(good.clone()));
        let second = of("\tversion  2 # and no more", "1000", place).expect("a good text");
        assert_eq!((second.len(), &second[3..5]), (good.len() + 2 + 2 * 2, &[2, 0][..]));
        assert!(of("version 2", "100000", place).is_ok());
        assert!(of("version 2", "100001", place).is_err());
        for (version, length, reason) in [
            ("version 0", "70000", "refused 3: the version is neither 1 nor 2"),
            ("version 3", "1000", "refused 3: the version is neither 1 nor 2"),
            ("version 513", "0", "refused 3: the version is neither 1 nor 2"),
            ("version 65535", "70000", "refused 3: the version is neither 1 nor 2"),
            ("version 65536", "70000", "version: \"65536\" does not fit the road file, which has room for 0 to 65535"),
            ("version -2", "70000", "version: \"-2\" does not fit the road file, which has room for 0 to 65535"),
            ("version", "70000", "version: the number is missing"),
            ("version two", "70000", "version: \"two\" is no number"),
        ] {
            assert_eq!(of(version, length, place), Err(vec![fault(place + 1, reason)]), "{version}");
        }
    }
}

/// A byte-order mark stands before a version as before any other line. A word that only begins like one is none.
#[test]
fn marks_and_words_before_a_version() {
    let long = GOOD.join("\n").replace("1000", "100000");
    assert_eq!(road_file(&format!("\u{feff}version 2\n{long}")), road_file(&format!("version 2\n{long}")));
    assert!(road_file(&format!("\u{feff}version 2\n{long}")).is_ok());
    for word in ["version2", "Version 2"] {
        let faults = road_file(&format!("{long}\n{word}")).expect_err("no version is named");
        let lines: Vec<usize> = faults.iter().map(|fault| fault.line).collect();
        assert_eq!(lines, [3, 8], "{word}");
    }
}

/// Where the road is refused and another version would take it, the proved reader says so.
#[test]
fn roads_that_another_version_takes() {
    let reason = |text: &str| road_file(text).expect_err("a road that is refused")[0].reason.clone();
    let of = |version: &str, length: &str| format!("{version}\n{}", GOOD.join("\n").replace("1000", length));
    for (version, length, taken) in [
        ("", "8001", true),
        ("version 1", "65535", true),
        ("version 1", "0", false),
        ("version 2", "100001", false),
        ("version 3", "1000", false),
    ] {
        let hint = reason(&of(version, length)).ends_with("; with the line 'version 2' it is taken");
        assert_eq!(hint, taken, "{version} {length}");
    }
    // It would not be taken: the speed is at fault in either version.
    assert!(!reason(&of("", "8001").replace("speed 80", "speed 19")).contains("it is taken"));
}

#[test]
fn curves_of_other_than_three_parts() {
    for text in ["curve", "curve 100 m", "curve 100 m, 20 m", "curve 100 m 20 m -3 %", "curve 100 m, 20 m, -3,0 %"] {
        expect(6, text, "a curve has three parts between commas: its PVI, its length and its grade out");
    }
}

#[test]
fn missing_lines() {
    for (place, name) in NAMES.into_iter().enumerate() {
        let mut lines = GOOD;
        lines[place] = "# nothing";
        assert_eq!(road_file(&lines.join("\n")), Err(vec![fault(7, &format!("the line {name} is missing"))]));
    }
    for text in ["", "\n", "# nothing"] {
        let all = NAMES.map(|name| fault(1, &format!("the line {name} is missing")));
        assert_eq!(road_file(text), Err(all.to_vec()));
    }
}

/// All lines that cannot be read are reported, in their order.
#[test]
fn several_bad_lines() {
    let text = "speed 80\nspeed 80 km/h\n\npurpose one\nlength 10 m\ncurve 1 m\nfirst grade 0 %\n";
    let expected = [
        fault(1, "speed: the unit km/h is missing"),
        fault(2, "speed stands on line 1 already"),
        fault(4, "purpose: \"one\" is no number"),
        fault(6, "a curve has three parts between commas: its PVI, its length and its grade out"),
        fault(7, "the line start height is missing"),
    ];
    assert_eq!(road_file(text), Err(expected.to_vec()));
}

/// The line that the second calculation would blame, with its refusal's number.
fn blamed(road: &Road, written: &Written) -> Option<(usize, u32)> {
    let refusal = verdict(road).err()?;
    let first = |curves: usize| Road { curves: road.curves[..curves].to_vec(), ..road.clone() };
    let curves = (0..=road.curves.len()).find(|&curves| verdict(&first(curves)) == Err(refusal))?;
    let line = match (curves, refusal) {
        (0, 3) => written.head[0],
        (0, _) => written.head[refusal as usize - 5],
        _ => written.curves[curves - 1],
    };
    Some((line, refusal))
}

/// A road that the proved reader refuses is reported with the line at fault and the refusal's number and words.
#[test]
fn refused_roads() {
    let mut random = Random::new(53);
    let (mut tally, mut of_curves) = (Tally::default(), 0);
    for round in 0..6_000 {
        let any = if round % 6 == 0 { roads::any_long_road } else { roads::any_road };
        let mut road = any(&mut random);
        let mut refusals: Vec<u32> = (0..random.within(1..=3)).map(|_| random.one_of(OF_ROAD)).collect();
        // The higher numbers first, so that a curve is spoilt on a road whose other numbers are still good.
        refusals.sort_unstable_by(|one, other| other.cmp(one));
        for refusal in refusals {
            roads::spoil_road(&mut random, &mut road, refusal);
        }
        if random.once_in(20) {
            road.curves.resize(random.within(33..=40) as usize, Curve { pvi: 1, length: 0, grade_out: 0 });
        }
        if random.once_in(20) {
            road.version = random.one_of(&[0, 3, 255, 256, 513, 65_535]);
        }
        let written = write(&mut random, &road);
        let Some((line, refusal)) = blamed(&road, &written) else { continue };
        let faults = road_file(&written.text).expect_err("the road is refused");
        let [Fault { line: at, reason, refused: true }] = &faults[..] else { panic!("{faults:?}") };
        assert_eq!(*at, line, "{reason}\n{}", written.text);
        assert!(reason.starts_with(&format!("refused {refusal}: ")), "{reason}\n{}", written.text);
        tally.count(Err(refusal));
        of_curves += usize::from(written.curves.contains(&line));
    }
    for refusal in [&[3, 4], OF_ROAD].concat() {
        assert!(tally.refused(refusal) > 100, "{} refused {refusal}", tally.refused(refusal));
    }
    assert!(of_curves > 500, "{of_curves} of curves");
}

#[test]
fn one_curve_too_many() {
    for (curves, version) in [32, 33, 34, 255, 256, 257, 300, 1_000].iter().flat_map(|&many| [(many, 1), (many, 2)]) {
        let version = format!("version {version}");
        let mut lines = [&GOOD[..5], &vec!["curve 500 m, 0 m, 3 %"; curves]].concat();
        lines.push(&version);
        let answer = road_file(&lines.join("\n"));
        if curves == 32 {
            assert!(answer.is_ok());
        } else {
            assert_eq!(answer, Err(vec![fault(5 + 33, "refused 4: there are more than 32 curves")]), "{curves}");
        }
    }
}

/// The 33rd curve is refused before any other fault, but for a version that is none.
#[test]
fn one_curve_too_many_and_another_fault() {
    for (line, text) in [(1, "speed 131 km/h"), (5 + 5, "curve 500 m, 1 m, 0 %")] {
        let mut lines = GOOD[..5].to_vec();
        lines.extend(["curve 500 m, 0 m, 3 %"; 33]);
        lines[line - 1] = text;
        let too_many = fault(5 + 33, "refused 4: there are more than 32 curves");
        assert_eq!(road_file(&lines.join("\n")), Err(vec![too_many]), "{text}");
        let no_version = fault(5 + 34, "refused 3: the version is neither 1 nor 2");
        assert_eq!(road_file(&format!("{}\nversion 3", lines.join("\n"))), Err(vec![no_version]), "{text}");
        lines.pop();
        let faults = road_file(&lines.join("\n")).expect_err("the other fault is there still");
        assert_eq!(faults.iter().map(|fault| fault.line).collect::<Vec<_>>(), [line], "{text}");
    }
}

/// Damaged files have no text: they are refused by their numbers.
#[test]
fn damaged_files() {
    let mut random = Random::new(54);
    let mut tally = Tally::default();
    for round in 0..5_000 {
        let file = match REFUSALS.get(round % (REFUSALS.len() + 1)) {
            None => roads::noise(&mut random),
            Some(&refusal) => roads::faulty_file(&mut random, &[refusal]),
        };
        match read(&file) {
            Err(refusal) => {
                assert_eq!(road_text(&file).map_err(|refusal| refusal.number()), Err(refusal), "{file:02X?}");
                tally.count(Err(refusal));
            }
            Ok(_) => assert_eq!(road_file(&road_text(&file).expect("it is accepted")), Ok(file)),
        }
    }
    for refusal in REFUSALS {
        assert!(tally.refused(refusal) > 200, "{} refused {refusal}", tally.refused(refusal));
    }
}
