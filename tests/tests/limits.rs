//! The limits that the Rust packages name are those of the proved crates.

const TERMS: &str = include_str!("../../crates/terms/src/lib.rt");
const ROAD: &str = include_str!("../../crates/road/src/lib.rt");
const FILE: &str = include_str!("../../crates/file/src/lib.rt");
const LISTING: &str = include_str!("../../crates/listing/src/lib.rt");

/// What stands behind the `=` of a constant, on one line.
fn constant(source: &str, name: &str) -> String {
    let (_, behind) = source.split_once(&format!("const {name}:")).expect("the constant is there");
    let (own, _) = behind.split_once(';').expect("a constant ends");
    let (_, value) = own.split_once('=').expect("a constant has a value");
    value.split_whitespace().collect::<Vec<_>>().join(" ")
}

/// The number of a constant.
fn number(source: &str, name: &str) -> usize {
    constant(source, name).parse().expect("a number")
}

/// How many letters the lister has, as in `const LETTERS: &[u8; 5] = b"SDRsd";`.
fn letters() -> usize {
    let line = LISTING.lines().find(|line| line.starts_with("const LETTERS:")).expect("the constant is there");
    line.split('"').nth(1).expect("its bytes").len()
}

/// The stations of the longest road of version 1, and of any that is listed and that the van marks.
fn short_stations() -> usize {
    assert_eq!(constant(TERMS, "SHORT_STATIONS"), "GREATEST_SHORT_ROAD as usize + 1");
    number(TERMS, "GREATEST_SHORT_ROAD") + 1
}

/// The stations of the longest road of version 2.
fn long_stations() -> usize {
    assert_eq!(constant(TERMS, "LONG_STATIONS"), "GREATEST_LONG_ROAD as usize + 1");
    number(TERMS, "GREATEST_LONG_ROAD") + 1
}

/// One byte more than the longest file, which is of version 2, has.
fn enough_bytes() -> usize {
    let sum = "LONG_STATION_BYTES + HEADER_BYTES + (LONG_STATION_BYTES + CURVE_BYTES) * road::CURVE_PLACES + 1";
    assert_eq!(constant(FILE, "ENOUGH_BYTES"), sum);
    assert_eq!(constant(ROAD, "CURVE_PLACES"), "terms::GREATEST_CURVE_COUNT as usize");
    let station = number(FILE, "LONG_STATION_BYTES");
    let curves = (station + number(FILE, "CURVE_BYTES")) * number(TERMS, "GREATEST_CURVE_COUNT");
    station + number(FILE, "HEADER_BYTES") + curves + 1
}

#[test]
fn limits_of_the_exports() {
    assert_eq!(exports::GREATEST_LIST, number(TERMS, "GREATEST_LIST"));
    assert_eq!(exports::LONG_STATIONS, long_stations());
    assert_eq!(exports::SHORT_STATIONS, short_stations());
    assert_eq!(exports::GREATEST_FARTHEST as usize, number(TERMS, "GREATEST_FARTHEST"));
    assert_eq!(exports::LEAST_SPEED as usize, number(TERMS, "LEAST_SPEED"));
    assert_eq!(exports::GREATEST_SPEED as usize, number(TERMS, "GREATEST_SPEED"));
    assert_eq!(exports::EYE_HEIGHT as usize, number(TERMS, "EYE_HEIGHT"));
    assert_eq!(exports::OBJECT_HEIGHT as usize, number(TERMS, "OBJECT_HEIGHT"));
    assert_eq!(exports::PASSING_OBJECT_HEIGHT as usize, number(TERMS, "PASSING_OBJECT_HEIGHT"));
    assert_eq!(exports::PASSING_NOT_JUDGED_BIT as usize, number(TERMS, "LAST_BIT"));
    assert_eq!(constant(LISTING, "MOST_ZONES"), "(terms::SHORT_STATIONS + 1) / 2");
    assert_eq!(constant(LISTING, "GREATEST_LISTING"), "22 + 14 * MOST_ZONES * LETTERS.len()");
    assert_eq!(exports::GREATEST_LISTING, 22 + 14 * short_stations().div_ceil(2) * letters());
    assert_eq!(exports::ENOUGH_BYTES, enough_bytes());
}

#[test]
fn limits_of_the_van() {
    assert_eq!(vcp::MOST_STATIONS, short_stations());
}
