//! The page of level distances, read as people read it: by where its numbers stand. Colours are held by the page that was looked at,
//! docs/sheet.svg.

use std::collections::BTreeSet;

use picture::{level_page, LevelPage, LevelRow};
use sight_tests::reference::distances::required_distance;

use crate::elements::{Element, Elements};

// A4, and what a printer may leave white at its edges, in hundredths of a millimetre.
const WIDTH: i64 = 21_000;
const HEIGHT: i64 = 29_700;
const EDGE: i64 = 500;

// How wide a digit, a bold one and a letter in running text are in the widest of the usual fonts, in hundredths of the font's size.
const DIGIT: i64 = 64;
const BOLD_DIGIT: i64 = 70;
pub const LETTER: i64 = 53;
pub const BOLD_LETTER: i64 = 60;

const PURPOSES: [&str; 6] = ["stop", "A", "B", "C", "D", "E"];

/// As many notes as there is room for, and as long.
const NOTES: [&str; 11] = ["a note of four and thirty letters."; 11];

/// The rows of the second calculation.
fn rows() -> Vec<LevelRow> {
    let metres = |speed: u32, purpose: u32| required_distance(speed, purpose, 0).expect("both are accepted");
    let row = |speed: u32| LevelRow { speed, metres: [0, 1, 2, 3, 4, 5].map(|purpose| metres(speed, purpose)) };
    (20..=130).map(row).collect()
}

fn page(rows: &[LevelRow]) -> Elements {
    Elements::of(&level_page(&LevelPage { purposes: PURPOSES, rows, notes: &NOTES }))
}

/// The texts of a page.
fn texts(page: &Elements) -> impl Iterator<Item = &Element> {
    page.0.iter().filter(|element| element.name == "text")
}

/// The words of a text.
fn shown(text: &Element) -> &str {
    text.text.trim_end()
}

/// The numbers of a page, with x of their right edge and y of their foot.
fn numbers(page: &Elements) -> Vec<(i64, i64, u32)> {
    let place = |text: &Element| Some((text.number("x"), text.number("y"), text.text.parse().ok()?));
    texts(page).filter_map(place).collect()
}

/// The different ones, ascending.
fn different(numbers: impl Iterator<Item = i64>) -> Vec<i64> {
    numbers.collect::<BTreeSet<_>>().into_iter().collect()
}

/// The rows of a page, from the left part to the right one and from the top down: each has its numbers below the heads of its part.
fn read(page: &Elements) -> Vec<LevelRow> {
    let numbers = numbers(page);
    let columns = different(numbers.iter().map(|&(x, ..)| x));
    let lines = different(numbers.iter().map(|&(_, y, _)| y));
    let mut rows = Vec::new();
    for part in columns.chunks(7) {
        for (&x, head) in part.iter().zip(["km/h"].into_iter().chain(PURPOSES)) {
            let mut heads = texts(page).filter(|text| text.label() == (x, head.to_string()));
            let y = heads.next().expect("the column has its head").number("y");
            assert!(y < lines[0] - size(page, ".row text") && heads.next().is_none(), "{head} at {x}, {y}");
        }
        for &line in &lines {
            let row: Vec<_> = numbers.iter().filter(|&&(x, y, _)| y == line && part.contains(&x)).collect();
            let [speed, metres @ ..] = &row[..] else { continue };
            assert!(row.is_sorted_by_key(|&&(x, ..)| x) && row.len() == part.len());
            rows.push(LevelRow { speed: speed.2, metres: [0, 1, 2, 3, 4, 5].map(|place: usize| metres[place].2) });
        }
    }
    rows
}

#[test]
fn every_number_where_it_is_read() {
    let all = rows();
    assert_eq!(read(&page(&all)), all);
    for many in [0, 1, 2, 3, 39, 40, 41, 80, 81, 110] {
        assert_eq!(read(&page(&all[..many])), all[..many], "{many} rows");
    }
    let other: Vec<LevelRow> = (0..30).map(|speed| LevelRow { speed, metres: [1, 2, 3, 4, 5, 999] }).collect();
    assert_eq!(read(&page(&other)), other);
}

/// The page's style.
fn style(page: &Elements) -> &str {
    &page.0.iter().find(|element| element.name == "style").expect("the page has a style").text
}

/// The size of a class's letters, by the page's style.
fn size(page: &Elements, class: &str) -> i64 {
    let rest = style(page).split_once(&format!("{class}{{font-size:")).expect("the class has a size").1;
    rest.split_once("px").expect("in units of the page").0.parse().expect("a number")
}

/// x, y, width and height of a rectangle.
fn rectangle(element: &Element) -> [i64; 4] {
    ["x", "y", "width", "height"].map(|name| element.number(name))
}

/// The edges of a part's columns and of its rows: its frame's, those between, and the foot of its heads.
fn edges(page: &Elements, part: usize) -> [Vec<i64>; 2] {
    let [left, top, width, height] = rectangle(page.with("class", "frame").nth(part).expect("the part has a frame"));
    let (commands, points) = page.with("class", "line").nth(part).expect("the part has lines").path();
    let heads = rectangle(page.with("class", "heads").nth(part).expect("the part has heads"));
    assert_eq!(heads[..3], [left, top, width]);
    let (mut columns, mut rows) = (vec![left, left + width], vec![top + heads[3], top + height]);
    for (kind, line) in commands.replace('M', "").chars().zip(points.chunks_exact(3)) {
        match kind {
            'h' => rows.push(line[1]),
            _ => columns.push(line[0]),
        }
        let all = if kind == 'h' { [left, width] } else { [top + heads[3], height - heads[3]] };
        assert_eq!([line[usize::from(kind == 'v')], line[2]], all, "a line from edge to edge");
    }
    [columns, rows].map(|edges| different(edges.into_iter()))
}

/// Each number, of up to three digits in a wide font, stands in the cell of its row and its column, and above what is drawn there.
#[test]
fn numbers_in_their_cells() {
    let all = rows();
    let page = page(&all);
    let size = size(&page, ".row text");
    assert!(style(&page).contains(&format!(".row text{{font-size:{size}px;text-anchor:end}}")));
    let groups: Vec<usize> = (0..page.0.len()).filter(|&place| page.0[place].get("class") == "row").collect();
    assert_eq!(groups.len(), all.len());
    for (place, row) in groups.into_iter().enumerate() {
        let [columns, rows] = edges(&page, place / 40);
        assert_eq!([columns.len(), rows.len()], [8, 1 + all[place / 40 * 40..].len().min(40)]);
        for (column, number) in page.inside(row).enumerate() {
            let (x, y) = (number.number("x"), number.number("y"));
            let digits = 3 * size * if column == 0 { BOLD_DIGIT } else { DIGIT } / 100;
            assert!(columns[column] <= x - digits && x < columns[column + 1], "{} at {x}", number.text);
            let (above, below) = (y - 3 * size / 4 - rows[place % 40], rows[place % 40 + 1] - y);
            assert!((above - below).abs() <= 20 && below > 0, "{} at {y}", number.text);
        }
        // The part's ground, of which that of the speeds is drawn first, lies below: what follows is the next part's.
        let grounds = page.0[..row].iter().filter(|element| element.get("class") == "speeds");
        assert_eq!(grounds.count(), place / 40 + 1);
        let next = page.0[row..].iter().find(|element| ["rect", "path"].contains(&element.name.as_str()));
        assert!(next.is_none_or(|next| next.get("class") == "speeds"));
    }
}

/// Numbers of at least 4 mm by their font's size, and nothing where a printer may leave the page white.
#[test]
fn legible_on_a4() {
    let page = page(&rows());
    let sheet = &page.0[0];
    assert_eq!(["viewBox", "width", "height"].map(|name| sheet.get(name)), ["0 0 21000 29700", "210mm", "297mm"]);
    assert!(size(&page, ".row text") >= 400);
    assert!(size(&page, ".head") >= 300 && size(&page, ".letter") >= 400 && size(&page, ".note") >= 350);
    for frame in page.with("class", "frame") {
        let [x, y, width, height] = rectangle(frame);
        assert!(x >= EDGE && x + width <= WIDTH - EDGE && y >= EDGE && y + height <= HEIGHT - EDGE);
    }
    for (class, letter) in [("title", BOLD_LETTER), ("sub", LETTER), ("note", LETTER)] {
        for text in page.with("class", class) {
            let size = size(&page, &format!(".{class}"));
            let (x, y, letters) = (text.number("x"), text.number("y"), shown(text).chars().count() as i64);
            assert!(x >= EDGE && x + letters * size * letter / 100 <= WIDTH - EDGE, "{}", text.text);
            assert!(y - size >= EDGE && y <= HEIGHT - EDGE, "{}", text.text);
        }
    }
    let words = |class| shown(page.only("class", class).1);
    assert_eq!(words("title"), "Required sight distance on a level road");
    assert_eq!(words("sub"), "in metres, rounded up to a multiple of 5 m, for each speed in km/h");
}

/// The notes stand one below the other under the last part, and eleven of them end where the longer parts do.
#[test]
fn notes_below_the_last_part() {
    let page = page(&rows());
    let frames: Vec<[i64; 4]> = page.with("class", "frame").map(rectangle).collect();
    let [left, top, _, height] = frames[2];
    let mut foot = top + height;
    for note in page.with("class", "note") {
        assert_eq!((note.number("x"), shown(note)), (left, NOTES[0]));
        assert!(foot + size(&page, ".note") <= note.number("y"));
        foot = note.number("y");
    }
    assert_eq!(page.with("class", "note").count(), NOTES.len());
    assert!(foot <= frames[0][1] + frames[0][3]);
}

/// Letters that mean something in SVG stand on the page as they are.
#[test]
fn any_words() {
    let purposes = ["<", "&", "&lt;", "<b>", "", "E"];
    let page = Elements::of(&level_page(&LevelPage { purposes, rows: &rows(), notes: &["A & B < C"] }));
    let heads: Vec<&str> = texts(&page).filter(|text| text.get("class").starts_with("head")).map(shown).collect();
    assert_eq!(heads[1..7], ["&lt;", "&amp;", "&amp;lt;", "&lt;b>", "", "E"]);
    assert_eq!(shown(page.only("class", "note").1), "A &amp; B &lt; C");
}

/// A stripe lies under the speeds that are multiples of ten, from edge to edge, and under no other.
#[test]
fn stripes() {
    let page = page(&rows());
    let frames: Vec<[i64; 4]> = page.with("class", "frame").map(rectangle).collect();
    let within = |[left, top, width, height]: [i64; 4], x: i64, y: i64| {
        (left..left + width).contains(&x) && (top..top + height).contains(&y)
    };
    let mut striped = Vec::new();
    for speed in page.with("class", "speed") {
        let (x, y) = (speed.number("x"), speed.number("y"));
        if page.with("class", "ten").any(|stripe| within(rectangle(stripe), x, y)) {
            striped.push(speed.text.clone());
        }
    }
    assert_eq!(striped, ["20", "30", "40", "50", "60", "70", "80", "90", "100", "110", "120", "130"]);
    let stripes: Vec<[i64; 4]> = page.with("class", "ten").map(rectangle).collect();
    assert_eq!(stripes.len(), striped.len());
    assert!(stripes.iter().all(|stripe| frames.iter().any(|frame| [stripe[0], stripe[2]] == [frame[0], frame[2]])));
}
