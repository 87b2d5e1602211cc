//! What another length of a curve does, before a stake is moved: in words, side by side, and in a picture.

use std::path::Path;

use exports::Refusal;
use picture::MEANINGS;

use crate::answers::file_to_write;
use crate::arguments::{Given, WHOLE};
use crate::columns::{lined_up, Row};
use crate::drawing::Drawing;
use crate::input;
use crate::judgement::{Ends, Preview, Zones, LETTERS};
use crate::output::{self, Output};
use crate::report::{row, stations_in, subject, zone, zone_rows, NOWHERE};
use crate::trouble::{even_unread, shown, Trouble, ANSWERED};

/// A zone before and one after, where there is one.
type Pair = [Option<[u32; 2]>; 2];

/// The letters with their meanings.
fn names() -> impl Iterator<Item = String> {
    LETTERS.into_iter().zip(MEANINGS).map(|(letter, meaning)| format!("{} {meaning}", char::from(letter)))
}

/// Zones before and after, ascending: a zone stands beside the next one of the other side that it overlaps or touches.
fn beside(before: &Ends, after: &Ends) -> Vec<Pair> {
    let (mut before, mut after) = (before.iter().copied().peekable(), after.iter().copied().peekable());
    let mut pairs = Vec::new();
    loop {
        pairs.push(match (before.peek(), after.peek()) {
            (None, None) => return pairs,
            (Some([_, last]), Some([first, _])) if last + 1 < *first => [before.next(), None],
            (Some([first, _]), Some([_, last])) if last + 1 < *first => [None, after.next()],
            _ => [before.next(), after.next()],
        });
    }
}

/// What stands for the zone above on the same side, where that reaches into this row too.
const AGAIN: &str = "\"";

/// What a row says of one side, below the last zone above on that side and beside the zone of the other side.
fn half(own: Option<[u32; 2]>, above: Option<[u32; 2]>, other: Option<[u32; 2]>) -> [String; 3] {
    match (own, above, other) {
        (Some(ends), ..) => zone(ends, 0),
        (None, Some([_, last]), Some([first, _])) if first <= last + 1 => [AGAIN, "", ""].map(str::to_string),
        _ => Default::default(),
    }
}

/// The rows of a letter's zones before and after.
fn rows_beside(name: &str, before: &Ends, after: &Ends) -> Vec<Row> {
    let mut pairs = beside(before, after);
    if pairs.is_empty() {
        pairs.push([None, None]);
    }
    let (mut above, mut rows): (Pair, Vec<Row>) = ([None, None], Vec::new());
    for pair in pairs {
        let halves = [0, 1].map(|side| half(pair[side], above[side], pair[1 - side]));
        rows.push([&[name.to_string()], &halves.concat()[..]].concat());
        above = [0, 1].map(|side| pair[side].or(above[side]));
    }
    for (column, zones) in [(1, before), (4, after)] {
        if zones.is_empty() {
            rows[0][column] = NOWHERE.to_string();
        }
    }
    rows
}

/// The zones of each letter before and after, side by side.
fn zones_beside(before: &Zones, after: &Zones) -> String {
    let sides = row(["", "before", "", "", "after"]);
    let mut rows = vec![sides, row(["zone", "from", "to", "length", "from", "to", "length"])];
    for ((name, before), after) in names().zip(before).zip(after) {
        rows.extend(rows_beside(&name, before, after));
    }
    lined_up(&rows)
}

/// Where stations are gained and where they are lost, of each letter that has some.
fn runs(preview: &Preview) -> String {
    let table = |head: &str, zones: &Zones| {
        let some = names().zip(zones).filter(|(_, zones)| !zones.is_empty());
        let rows: Vec<Row> = some.flat_map(|(name, zones)| zone_rows(&name, zones, 0)).collect();
        match rows.is_empty() {
            true => vec![row([head, NOWHERE])],
            false => [vec![row([head, "from", "to", "length"])], rows].concat(),
        }
    };
    let Preview { gained, lost, .. } = preview;
    lined_up(&[table("gained", gained), vec![Row::new()], table("lost", lost)].concat())
}

/// How many stations each letter has before and after, and how many it gains and loses.
fn sums(preview: &Preview) -> String {
    let Preview { before, after, gained, lost, .. } = preview;
    let mut rows = vec![row(["stations", "before", "after", "gained", "lost"])];
    for (place, name) in names().enumerate() {
        let many = |zones: &Zones| stations_in(&zones[place]).to_string();
        rows.push(vec![name, many(&before.zones), many(&after.zones), many(gained), many(lost)]);
    }
    lined_up(&rows)
}

/// The preview in words, under a title.
fn text(title: &str, preview: &Preview) -> String {
    let Preview { before, after, differing, .. } = preview;
    let parts = [
        format!("{title}\n{}\n", subject(before, 0)),
        zones_beside(&before.zones, &after.zones),
        runs(preview),
        format!("{}\n{}\n", sums(preview), picture::differing(*differing, before.stations)),
    ];
    parts.join("\n")
}

/// The preview as a picture.
fn picture(file: &[u8], place: u32, preview: &Preview) -> Result<String, Refusal> {
    let Preview { before, after, differing, changed, .. } = preview;
    let (before, after) = (Drawing::of_road(file, before)?, Drawing::of_road(changed, after)?);
    let (before, after) = (before.profile(None), after.profile(None));
    Ok(picture::preview(&picture::Preview { before, after, place: place as usize, differing: *differing }))
}

/// The file that the changed road is written to, where `-o` names one: no picture, which whoever knows `vcp plot` may mean.
fn file_of_changed(given: &Given) -> Result<Option<&Path>, Trouble> {
    match file_to_write(given)? {
        None if given.is_there("-o") => Err(given.wrong("-o needs a file: standard output has the preview")),
        Some(path) if path.extension().is_some_and(|ending| ending.eq_ignore_ascii_case("svg")) => {
            Err(given.wrong("-o is for the changed road: standard output has the picture"))
        }
        file => Ok(file),
    }
}

/// Prints the answer, and then writes the changed road, so that there is no file of what could not be printed. Whoever closes the
/// pipe has seen enough, and the file is still wanted.
fn print_and_write(output: &mut Output, answer: &str, file: Option<&Path>, changed: &[u8]) -> Result<u8, Trouble> {
    even_unread(output.write(answer.as_bytes()).and_then(|()| output.flush()))?;
    if let Some(path) = file {
        output::write_file(path, changed).map_err(|error| Trouble::with_file(path, &error))?;
    }
    Ok(ANSWERED)
}

/// `vcp preview`.
pub fn preview(given: &Given, output: &mut Output) -> Result<u8, Trouble> {
    let place = given.needed("--curve", |text| WHOLE.read(text))?;
    // A number that 32 bits do not hold is read as the greatest that they hold: what is said of it are its own words.
    let (length, own_words) = given.needed("--length", |text| Ok((WHOLE.read(text)?, text.to_string())))?;
    let file_of_changed = file_of_changed(given)?;
    let (path, name) = (given.file(), shown(given.file()));
    let file = input::road_file(path)?;
    let refused = Trouble::refused(path);
    exports::short_stations(&file).map_err(&refused)?;
    // The road itself is taken: what is refused from here on is the place, or else the changed road.
    let curves = roadtext::road_numbers(&file).map_err(&refused)?.curves;
    let changed_name = match (curves.get(place as usize), curves.len()) {
        (Some([pvi, ..]), _) => format!("{name} with curve {place}, PVI {pvi} m, {own_words} m long"),
        (None, 1) => format!("{name} with 1 curve"),
        (None, many) => format!("{name} with {many} curves"),
    };
    let preview = Preview::of_road(&file, place, length).map_err(Trouble::refused(changed_name))?;
    let answer = if given.is_there("--svg") {
        picture(&file, place, &preview).map_err(&refused)?
    } else {
        let [pvi, old_length, _] = curves[place as usize];
        text(&format!("{name}: curve {place}, PVI {pvi} m: length {old_length} m -> {length} m"), &preview)
    };
    print_and_write(output, &answer, file_of_changed, &preview.changed)
}
