//! `vcp sheet`: every distance on a level road, as text and on a page.

mod common;

use std::fs;

use common::{expect, expect_wrong, folder, names, root, run};
use sight_tests::reference::distances::required_distance;

/// Speeds down and purposes across, each number that of the second calculation.
#[test]
fn every_number() {
    let ended = run(&folder("sheet_numbers"), &["sheet"]);
    assert_eq!((ended.errors.as_str(), ended.status), ("", 0));
    let lines: Vec<&str> = ended.output.lines().collect();
    assert_eq!(lines[..2], ["required distances in m on a level road", ""]);
    let heads = "km/h   stopping   decision A   decision B   decision C   decision D   decision E";
    assert_eq!(lines[2], heads);
    let mut speeds = Vec::new();
    for line in &lines[3..] {
        let numbers: Vec<u32> = line.split_whitespace().map(|number| number.parse().expect("a number")).collect();
        let second = (0..6).map(|purpose| required_distance(numbers[0], purpose, 0).expect("both are accepted"));
        assert_eq!(numbers[1..], second.collect::<Vec<_>>(), "{line}");
        speeds.push(numbers[0]);
        // Each number ends where its head does.
        let mut end = 0;
        for head in heads.split("   ") {
            end += head.len();
            let alone = line.len() == end || line[end..].starts_with(' ');
            assert!(line.as_bytes()[end - 1].is_ascii_digit() && alone, "{line} at {end}");
            end += 3;
        }
    }
    assert_eq!(speeds, (20..=130).collect::<Vec<_>>());
}

/// The page that the README links, to standard output and into a file; the numbers into a file.
#[test]
fn page_of_the_readme() {
    let folder = folder("sheet_page");
    let page = fs::read_to_string(root().join("docs/sheet.svg")).unwrap();
    expect(&folder, &["sheet", "--svg"], &page);
    expect(&folder, &["sheet", "--svg", "-o", "a.svg"], "");
    expect(&folder, &["sheet", "-oa.txt"], "");
    assert_eq!(fs::read_to_string(folder.join("a.svg")).unwrap(), page);
    assert_eq!(fs::read_to_string(folder.join("a.txt")).unwrap(), run(&folder, &["sheet"]).output);
    expect(&folder, &["sheet", "-o", "b.svg", "--svg"], "");
    assert_eq!(fs::read_to_string(folder.join("b.svg")).unwrap(), page);
    assert_eq!(names(&folder), ["a.svg", "a.txt", "b.svg"]);
}

/// What the page says besides its numbers is so: its columns are purposes that the command takes, in their order, and the call that
/// stands there is answered.
#[test]
fn words_of_the_page() {
    let folder = folder("sheet_words");
    let page = run(&folder, &["sheet", "--svg"]).output;
    let texts = |class: &str| -> Vec<String> {
        let with = page.split("<text ").filter(|text| text.starts_with(&format!("class=\"{class}")));
        with.map(|text| text.split(['>', '<']).nth(1).unwrap_or_default().to_string()).collect()
    };
    let heads = texts("head");
    assert_eq!(heads.len(), 21);
    for part in heads.chunks(7) {
        assert_eq!(part[0], "km/h");
        for (purpose, head) in (0..).zip(&part[1..]) {
            let metres = required_distance(80, purpose, 0).expect("both are accepted");
            expect(&folder, &["distance", "80", head], &format!("{metres}\n"));
        }
    }
    let notes = texts("note");
    assert!(notes.len() == 11 && notes.iter().all(|note| note.len() <= 34), "the page has room for them");
    let call = notes.iter().find_map(|note| note.strip_prefix("vcp ")).expect("a call");
    let arguments: Vec<&str> = call.split(' ').collect();
    let metres = required_distance(80, 2, -600).expect("all are accepted");
    expect(&folder, &arguments, &format!("{metres}\n"));
    // Source document 002, section 3.2.
    let words = notes.join(" ");
    for meaning in [
        "A: to stop on a rural road B: to stop on an urban road",
        "C, D, E: to change speed, path or direction; C on a rural road, D on a suburban, E on an urban one",
        "C, D and E hold on every grade; stop, A, B can be longer downhill: vcp distance 80 B ",
        " for 6 % downhill, 6.00 for uphill",
    ] {
        assert!(words.contains(meaning), "{meaning}");
    }
}

#[test]
fn wrong_uses() {
    let folder = folder("sheet_wrong");
    let usage = run(&folder, &["sheet", "80"]).errors.lines().nth(1).map(str::to_string);
    assert_eq!(usage.as_deref(), Some("usage: vcp sheet [--svg] [-o OUT]"));
    expect_wrong(&folder, &["sheet", "80"], "\"80\" is one argument too many");
    expect_wrong(&folder, &["sheet", "--svg", "a.svg"], "\"a.svg\" is one argument too many");
    expect_wrong(&folder, &["sheet", "--svg=a.svg"], "--svg takes no value");
    expect_wrong(&folder, &["sheet", "--svg="], "--svg takes no value");
    expect_wrong(&folder, &["sheet", "--svg", "--svg"], "--svg stands twice");
    expect_wrong(&folder, &["sheet", "-o"], "-o needs OUT");
    expect_wrong(&folder, &["sheet", "-o", "--svg"], "-o needs OUT");
    expect_wrong(&folder, &["sheet", "--grade", "-6.00"], "there is no option --grade");
    expect_wrong(&folder, &["distance", "80", "0", "--svg"], "there is no option --svg");
    assert!(names(&folder).is_empty());
}
