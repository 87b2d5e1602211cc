//! The page of the distances on a level road: A4, to print and laminate, in SVG.
//!
//! Coordinates are whole hundredths of a millimetre, x to the right and y down. The rows stand in parts side by side, which are read
//! one after the other, so that the numbers are large enough at arm's length. The notes stand below the last part, which has
//! fewer rows.

use std::fmt::{self, Formatter};

// The page, in millimetres.
const WIDTH: usize = 210;
const HEIGHT: usize = 297;

// The parts of the table: how many rows each has, where the first begins, how far it is to the next, where their heads and their rows
// begin, and how far it is from one row to the next.
const PART_ROWS: usize = 40;
const LEFT: usize = 730;
const PART_STEP: usize = 6_590;
const HEADS: usize = 2_750;
const ROWS: usize = 3_400;
const ROW_STEP: usize = 620;

// The columns of a part: how many, how wide the speed's and each other is, and how far a number stands from its column's right edge.
const COLUMNS: usize = 7;
const SPEED_COLUMN: usize = 1_020;
const COLUMN: usize = 890;
const PART_WIDTH: usize = SPEED_COLUMN + (COLUMNS - 1) * COLUMN;
const BESIDE: usize = 65;

// How far numbers stand below the middle of their row, and heads above the first one.
const BELOW_MIDDLE: usize = 150;
const ABOVE_ROWS: usize = 190;

// The notes: how far below the rows the first stands, and how far it is to the next.
const BELOW_ROWS: usize = 560;
const NOTE_STEP: usize = 480;

const TITLE: &str = "Required sight distance on a level road";
const SUBTITLE: &str = "in metres, rounded up to a multiple of 5 m, for each speed in km/h";

/// A row of the page: a speed in km/h, and the distances in metres for each purpose.
#[derive(Clone, Copy, Debug, PartialEq, Eq)]
pub struct LevelRow {
    /// The speed in km/h.
    pub speed: u32,
    /// The distances in metres, by purpose.
    pub metres: [u32; COLUMNS - 1],
}

/// The distances on a level road, and what is to be said of them. There is room for 111 rows, and below them for 11 notes of 34
/// letters.
#[derive(Clone, Copy, Debug)]
pub struct LevelPage<'a> {
    /// The purposes' short names.
    pub purposes: [&'a str; COLUMNS - 1],
    /// The rows in their order.
    pub rows: &'a [LevelRow],
    /// The notes, a line each.
    pub notes: &'a [&'a str],
}

/// The page: an SVG document that needs nothing else.
///
/// ```
/// use picture::{level_page, LevelPage, LevelRow};
///
/// let page = level_page(&LevelPage {
///     purposes: ["stop", "A", "B", "C", "D", "E"],
///     rows: &[LevelRow { speed: 80, metres: [130, 145, 280, 250, 290, 325] }],
///     notes: &["C, D and E hold on every grade."],
/// });
/// assert!(page.starts_with("<svg ") && page.contains(r#" width="210mm" height="297mm">"#));
/// ```
pub fn level_page(page: &LevelPage) -> String {
    page.to_string()
}

impl fmt::Display for LevelPage<'_> {
    /// What is drawn later lies above what was drawn before.
    fn fmt(&self, out: &mut Formatter) -> fmt::Result {
        opening(out)?;
        let mut below = Part { left: LEFT, rows: &[] };
        for (place, rows) in (0..).zip(self.rows.chunks(PART_ROWS)) {
            let part = Part { left: LEFT + place * PART_STEP, rows };
            part.tints(out)?;
            part.lines(out)?;
            part.heads(out, self.purposes)?;
            part.numbers(out)?;
            below = part;
        }
        below.notes(out, self.notes)?;
        out.write_str("</svg>\n")
    }
}

/// The page's size, its styles and its title.
fn opening(out: &mut Formatter) -> fmt::Result {
    write!(out, r#"<svg xmlns="http://www.w3.org/2000/svg" viewBox="0 0 {} {}" "#, 100 * WIDTH, 100 * HEIGHT)?;
    writeln!(out, r#"width="{WIDTH}mm" height="{HEIGHT}mm">"#)?;
    writeln!(out, "<style>\n{}</style>", include_str!("page.css"))?;
    writeln!(out, r##"<rect width="{}" height="{}" fill="#fff"/>"##, 100 * WIDTH, 100 * HEIGHT)?;
    writeln!(out, "<title>{TITLE}</title>")?;
    writeln!(out, r#"<text class="title" x="{LEFT}" y="1550">{TITLE}</text>"#)?;
    writeln!(out, r#"<text class="sub" x="{LEFT}" y="2300">{SUBTITLE}</text>"#)
}

/// A text as it stands in an element.
fn escaped(text: &str) -> String {
    text.replace('&', "&amp;").replace('<', "&lt;")
}

/// A part of the table: where its left edge is, and its rows.
struct Part<'a> {
    left: usize,
    rows: &'a [LevelRow],
}

impl Part<'_> {
    /// x of the right edge of a column.
    fn right(&self, column: usize) -> usize {
        self.left + SPEED_COLUMN + column * COLUMN
    }

    /// y of a row's upper edge.
    fn top(&self, row: usize) -> usize {
        ROWS + row * ROW_STEP
    }

    /// The height of all rows.
    fn height(&self) -> usize {
        self.rows.len() * ROW_STEP
    }

    /// The ground of the speeds, of every other column and of the heads, and a stripe under every speed that is a multiple of ten.
    fn tints(&self, out: &mut Formatter) -> fmt::Result {
        let (left, height) = (self.left, self.height());
        writeln!(out, r#"<rect class="speeds" x="{left}" y="{ROWS}" width="{SPEED_COLUMN}" height="{height}"/>"#)?;
        for x in (0..COLUMNS - 1).step_by(2).map(|column| self.right(column)) {
            writeln!(out, r#"<rect class="column" x="{x}" y="{ROWS}" width="{COLUMN}" height="{height}"/>"#)?;
        }
        for (place, _) in (0..).zip(self.rows).filter(|(_, row)| row.speed % 10 == 0) {
            let y = self.top(place);
            writeln!(out, r#"<rect class="ten" x="{left}" y="{y}" width="{PART_WIDTH}" height="{ROW_STEP}"/>"#)?;
        }
        let heads = ROWS - HEADS;
        writeln!(out, r#"<rect class="heads" x="{left}" y="{HEADS}" width="{PART_WIDTH}" height="{heads}"/>"#)
    }

    /// The lines between rows and between columns, and the frame.
    fn lines(&self, out: &mut Formatter) -> fmt::Result {
        let (left, height) = (self.left, self.height());
        let across = (1..self.rows.len()).map(|row| format!("M{left} {}h{PART_WIDTH}", self.top(row)));
        let down = (0..COLUMNS - 1).map(|column| format!("M{} {ROWS}v{height}", self.right(column)));
        writeln!(out, r#"<path class="line" d="{}"/>"#, across.chain(down).collect::<String>())?;
        let all = ROWS - HEADS + height;
        writeln!(out, r#"<rect class="frame" x="{left}" y="{HEADS}" width="{PART_WIDTH}" height="{all}"/>"#)
    }

    /// What stands above the columns, letters larger than words.
    fn heads(&self, out: &mut Formatter, purposes: [&str; COLUMNS - 1]) -> fmt::Result {
        let y = ROWS - ABOVE_ROWS;
        for (column, head) in (0..).zip(["km/h"].into_iter().chain(purposes)) {
            let class = if head.len() == 1 { "head letter" } else { "head" };
            let (x, head) = (self.right(column) - BESIDE, escaped(head));
            writeln!(out, r#"<text class="{class}" x="{x}" y="{y}">{head}</text>"#)?;
        }
        Ok(())
    }

    /// The numbers, row by row.
    fn numbers(&self, out: &mut Formatter) -> fmt::Result {
        for (place, &LevelRow { speed, metres }) in (0..).zip(self.rows) {
            let y = self.top(place) + ROW_STEP / 2 + BELOW_MIDDLE;
            write!(out, r#"<g class="row"><text class="speed" x="{}" y="{y}">{speed}</text>"#, self.right(0) - BESIDE)?;
            for (column, metres) in (1..).zip(metres) {
                write!(out, r#"<text x="{}" y="{y}">{metres}</text>"#, self.right(column) - BESIDE)?;
            }
            writeln!(out, "</g>")?;
        }
        Ok(())
    }

    /// The notes below the part.
    fn notes(&self, out: &mut Formatter, notes: &[&str]) -> fmt::Result {
        for (place, note) in (0..).zip(notes) {
            let y = ROWS + self.height() + BELOW_ROWS + place * NOTE_STEP;
            writeln!(out, r#"<text class="note" x="{}" y="{y}">{}</text>"#, self.left, escaped(note))?;
        }
        Ok(())
    }
}
