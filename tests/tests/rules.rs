//! docs/RULES.md and the sources say the same numbers and names.

use std::collections::BTreeMap;

use sight_tests::lister;
use sight_tests::pages::{block, has_public, links, prose, quoted, root, table, text};
use sight_tests::roads::SHARP_BREAK;

const RULES: &str = "docs/RULES.md";

/// A number of a document: its thousands are parted by commas, and its sign is a minus or a hyphen.
fn number(shown: &str) -> i64 {
    shown.replace(',', "").replace('−', "-").parse().unwrap_or_else(|_| panic!("{shown} is no number"))
}

/// The value of an antt definition such as `neg_ℤ (pos 10)`.
fn value(term: &str) -> i64 {
    let digits: String = term.chars().filter(char::is_ascii_digit).collect();
    let size: i64 = digits.parse().unwrap_or_else(|_| panic!("{term} has no number"));
    if term.contains("neg_ℤ") {
        -size
    } else {
        size
    }
}

/// The definitions of a source, such as `least_speed = 20`, or `number ShortFile = 1` of a refusal: each name with its number.
fn definitions(path: &str) -> BTreeMap<String, i64> {
    let source = text(path);
    let lines = source.lines().filter(|line| !line.starts_with("--"));
    let named = lines.filter_map(|line| line.split_once(" = "));
    named.map(|(name, term)| (name.trim_start_matches("number ").to_string(), value(term))).collect()
}

/// The table below a heading, as names with their numbers.
fn shown(heading: &str) -> BTreeMap<String, i64> {
    let rules = text(RULES);
    let rows = table(&rules, heading);
    let named: BTreeMap<String, i64> = rows.iter().map(|row| (quoted(row[1])[0].to_string(), number(row[0]))).collect();
    assert_eq!(named.len(), rows.len(), "{heading} names one twice");
    named
}

/// The constants of the code, such as `LEAST_SPEED`, which the definitions call `least_speed`, by those names.
fn constants() -> BTreeMap<String, i64> {
    let source = text("crates/terms/src/lib.rt");
    let lines = source.lines().filter_map(|line| line.strip_prefix("pub const "));
    let named = lines.filter_map(|line| {
        let (name, rest) = line.split_once(':')?;
        let value = rest.split_once('=')?.1.trim().trim_end_matches(';').parse().ok()?;
        Some((name.to_ascii_lowercase(), value))
    });
    named.collect()
}

/// The variants of the code's `Refusal`, such as `ShortFile = 1`, by their names.
fn variants() -> BTreeMap<String, i64> {
    let source = text("crates/terms/src/lib.rt");
    let of_the_enum = source.split("pub enum Refusal {").nth(1).expect("the enum").split('}').next().expect("its end");
    let lines = of_the_enum.lines().map(str::trim).filter(|line| !line.is_empty() && !line.starts_with("//"));
    let named = lines.map(|line| {
        let (name, number) = line.trim_end_matches(',').split_once(" = ").expect("a variant with its number");
        (name.to_string(), number.parse().expect("a number"))
    });
    named.collect()
}

/// The rules' numbers are those of the definitions and of the code, and none is left out.
#[test]
fn refusals_and_limits_are_those_of_the_sources() {
    let refusals = shown("## Refusals");
    assert!(refusals.len() > 20, "{} refusals", refusals.len());
    assert_eq!(refusals, definitions("crates/terms/specs/Refusals.antt"), "refusals");
    assert_eq!(refusals, variants(), "refusals in the code");
    let limits = shown("## Limits");
    assert!(limits.len() > 15, "{} limits", limits.len());
    assert_eq!(limits, definitions("crates/terms/specs/Limits.antt"), "limits");
    let constants = constants();
    for (name, number) in limits {
        assert_eq!(constants.get(&name), Some(&number), "{name} in the code");
    }
}

/// The numbers of a text.
fn numbers(text: &str) -> Vec<i64> {
    let parts = text.split(|letter: char| !(letter.is_ascii_digit() || ",−-".contains(letter)));
    parts
        .map(|part| part.trim_matches(','))
        .filter(|part| part.bytes().any(|byte| byte.is_ascii_digit()))
        .map(number)
        .collect()
}

/// The reason that the command prints for a refusal has the numbers of its row, and there is one for each.
#[test]
fn every_refusal_has_its_reason() {
    let rules = text(RULES);
    let rows = table(&rules, "## Refusals");
    for (place, row) in rows.iter().enumerate() {
        let number = number(row[0]);
        assert_eq!(number, place as i64 + 1, "the refusals stand in order");
        let reason = refusal::answer(-number).expect_err("a refusal").to_string();
        let reason = reason.strip_prefix(&format!("refused {number}: ")).expect("its number");
        assert!(!reason.contains("do not name"), "refusal {number} has no reason");
        let said = numbers(reason);
        for own in numbers(row[2]) {
            assert!(said.contains(&own), "refusal {number}: {own} is not in {reason:?}");
        }
    }
    let beyond = refusal::answer(-(rows.len() as i64) - 1).expect_err("a refusal").to_string();
    assert!(beyond.contains("do not name"), "{beyond}");
}

/// The table of purposes is that of the definitions.
#[test]
fn purposes_are_those_of_the_definitions() {
    let rules = text(RULES);
    let rows = rules.lines().map(str::trim).skip_while(|line| !line.starts_with("| Purpose |")).skip(2);
    let shown: Vec<String> = rows
        .take_while(|line| line.starts_with('|'))
        .map(|row| {
            let columns: Vec<&str> = row.trim_matches('|').split('|').map(str::trim).collect();
            format!("row {} {}", columns[2].replace('.', ""), columns[3] == "yes")
        })
        .collect();
    let source = text("crates/distance/specs/Distance.antt");
    let defined = source.lines().find_map(|line| line.strip_prefix("purposes = ")).expect("the table");
    assert_eq!(format!("{} ∷ []", shown.join(" ∷ ")), defined);
}

/// Each definition that the rules name beside a rule is a public one of the file that they name.
#[test]
fn definitions_are_those_of_the_files() {
    let rules = prose(&text(RULES));
    let mut found = 0;
    for (name, path) in links(&rules).into_iter().filter(|(name, _)| !["Refusals", "Limits"].contains(name)) {
        let source = text(path.strip_prefix("../").expect("a path of the repository"));
        assert!(has_public(&source, name), "{name} in {path}");
        found += 1;
    }
    assert!(found > 50, "{found} definitions");
}

/// The listing of the rules is what the lister prints for their bytes, which are the lister's own example.
#[test]
fn listing_of_the_rules() {
    let rules = text(RULES);
    let [file, sharp] = [1, 2].map(|place| {
        let words = rules.split("hexadecimal bytes").nth(place).expect("the bytes").split_whitespace();
        let bytes = words.map_while(|word| u8::from_str_radix(word.trim_end_matches(','), 16).ok());
        bytes.collect::<Vec<_>>()
    });
    assert_eq!(sharp, SHARP_BREAK);
    let printed = lister::output(&file);
    assert_eq!(block(&rules, "```"), printed.lines().collect::<Vec<_>>());
    assert_eq!(printed, text("crates/lister/stdout"));
    assert_eq!(file, std::fs::read(root().join("crates/lister/stdin")).expect("the lister's example"));
}
