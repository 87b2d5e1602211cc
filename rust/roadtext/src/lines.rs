//! The lines of a text, read into the road file's numbers.

use crate::decimal::quoted;
use crate::field::{Layout, CURVE, FIRST_VERSION, HEAD, VERSION};
use crate::{Fault, BYTE_ORDER_MARK};

/// An item, and the line where it stands.
#[derive(Clone, Copy)]
pub struct Placed<T> {
    pub line: usize,
    pub item: T,
}

/// A road as its text has it, in the numbers of its road file.
#[derive(Clone)]
pub struct Road {
    pub layout: Layout,
    pub head: [Placed<i64>; 6],
    pub curves: Vec<Placed<[i64; 3]>>,
}

/// The items read so far, for a file of this layout.
struct Items {
    layout: Layout,
    head: [Option<Placed<i64>>; 6],
    curves: Vec<Placed<[i64; 3]>>,
}

impl Items {
    /// Reads a line; answers what is wrong with it.
    fn read(&mut self, line: usize, text: &str) -> Result<(), String> {
        let text = words(text);
        if text.is_empty() {
            return Ok(());
        }
        if let Some(numbers) = after("curve", &text) {
            self.curves.push(Placed { line, item: curve(numbers, self.layout)? });
            return Ok(());
        }
        let mut head = HEAD.iter().zip(&mut self.head);
        let found = head.find_map(|(field, place)| Some((field, place, after(field.name, &text)?)));
        let Some((field, place, number)) = found else {
            let names = HEAD.map(|field| field.name).join(", ");
            return Err(format!("unknown words in {}: a line begins with {names} or curve", quoted(&text)));
        };
        if let Some(first) = place {
            return Err(format!("{} stands on line {} already", field.name, first.line));
        }
        // The line is there, even if its number is at fault.
        let item = field.read(number, self.layout);
        *place = Some(Placed { line, item: *item.as_ref().unwrap_or(&0) });
        item.map(drop)
    }
}

/// A line without its comment, with one space between its words.
fn words(line: &str) -> String {
    let before_comment = line.split('#').next().unwrap_or_default();
    before_comment.split_whitespace().collect::<Vec<_>>().join(" ")
}

/// What follows a line's first words, if it begins with these.
fn after<'a>(words: &str, text: &'a str) -> Option<&'a str> {
    match text.strip_prefix(words)? {
        "" => Some(""),
        others => others.strip_prefix(' '),
    }
}

/// The numbers of a curve.
fn curve(text: &str, layout: Layout) -> Result<[i64; 3], String> {
    let parts: Vec<&str> = text.split(',').map(str::trim).collect();
    let [pvi, length, grade_out] = parts[..] else {
        return Err("a curve has three parts between commas: its PVI, its length and its grade out".to_string());
    };
    Ok([CURVE[0].read(pvi, layout)?, CURVE[1].read(length, layout)?, CURVE[2].read(grade_out, layout)?])
}

/// The layout of the version that a text names, on whichever line. Where that cannot be read no other line is at fault for it, so
/// it is the one with the most room.
fn layout_of(text: &str) -> Layout {
    let named = text.lines().map(words).find_map(|line| after(VERSION.name, &line).map(str::to_string));
    let version = named.map_or(Ok(FIRST_VERSION), |number| VERSION.read(&number, Layout::ROOMIEST));
    version.map_or(Layout::ROOMIEST, Layout::of)
}

/// Reads all lines; answers all that is wrong.
pub fn read_lines(text: &str) -> Result<Road, Vec<Fault>> {
    let text = text.strip_prefix(BYTE_ORDER_MARK).unwrap_or(text);
    let mut items = Items { layout: layout_of(text), head: [None; 6], curves: Vec::new() };
    let mut faults = Vec::new();
    let mut last = 1;
    for (line, text) in (1..).zip(text.lines()) {
        last = line;
        if let Err(reason) = items.read(line, text) {
            faults.push(Fault { line, reason, refused: false });
        }
    }
    let [version, ..] = &mut items.head;
    version.get_or_insert(Placed { line: last, item: FIRST_VERSION });
    for (field, item) in HEAD.iter().zip(&items.head) {
        if item.is_none() {
            let reason = format!("the line {} is missing", field.name);
            faults.push(Fault { line: last, reason, refused: false });
        }
    }
    let Items { layout, head, curves } = items;
    match head {
        [Some(version), Some(speed), Some(purpose), Some(length), Some(start_height), Some(first_grade)]
            if faults.is_empty() =>
        {
            Ok(Road { layout, head: [version, speed, purpose, length, start_height, first_grade], curves })
        }
        _ => Err(faults),
    }
}
