//! What each command answers.

use std::io::{self, IsTerminal};
use std::path::Path;

use exports::{Direction, Manoeuvre, Refusal, ENOUGH_BYTES, EYE_HEIGHT, GREATEST_LISTING, OBJECT_HEIGHT};
use picture::Profile;
use roadtext::Fault;

use crate::arguments::{Given, ACCELERATION, GRADE, HEIGHT, TENTHS, WHOLE};
use crate::drawing::{self, Drawing};
use crate::judgement::{Judgement, Passing};
use crate::output::{self, Output};
use crate::survey::Survey;
use crate::trouble::{shown, Trouble, ANSWERED};
use crate::{complain, input, purpose, report};

/// So many faults of a text are said at most.
const MOST_FAULTS: usize = 20;

/// The grade of a level road.
pub const LEVEL: i32 = 0;

/// Answers for each file in turn, and goes on after one that is refused or cannot be read. The status is the greatest.
fn for_each_file(
    given: &Given,
    output: &mut Output,
    mut answer: impl FnMut(&Path, &mut Output) -> Result<(), Trouble>,
) -> Result<u8, Trouble> {
    let mut status = ANSWERED;
    for file in given.files() {
        match answer(file, output) {
            Ok(()) => {}
            Err(Trouble::Unread) => break,
            Err(trouble @ Trouble::Unwritten(_)) => return Err(trouble),
            Err(trouble) => {
                // What was answered before stands before the complaint.
                let written = output.flush();
                complain(&trouble);
                status = status.max(trouble.status());
                match written {
                    Err(Trouble::Unread) => break,
                    written => written?,
                }
            }
        }
    }
    Ok(status)
}

/// The file that `-o` names, or none where it names standard output; neither may be what the answer is made from.
pub fn file_to_write(given: &Given) -> Result<Option<&Path>, Trouble> {
    let path = given.output_file();
    let place = path.unwrap_or(Path::new("/dev/stdout"));
    if given.files().any(|file| output::is_input(place, file)) {
        let name = path.map_or("standard output".to_string(), shown);
        return Err(Trouble::failed(format!("{name}: it would replace what it is made from")));
    }
    Ok(path.filter(|path| !output::is_standard(path)))
}

/// Writes the one answer of a command, into the file that `-o` names or to standard output.
pub fn write_answer(given: &Given, output: &mut Output, bytes: &[u8]) -> Result<u8, Trouble> {
    match file_to_write(given)? {
        Some(path) => output::write_file(path, bytes).map_err(|error| Trouble::with_file(path, &error))?,
        None => output.write(bytes)?,
    }
    Ok(ANSWERED)
}

/// The direction that is asked for: that of rising stations, or of the lane coming back.
pub fn direction(given: &Given) -> Direction {
    if given.is_there("--back") {
        Direction::Falling
    } else {
        Direction::Rising
    }
}

/// `vcp list`.
pub fn list(given: &Given, output: &mut Output) -> Result<u8, Trouble> {
    let mut text = vec![0; GREATEST_LISTING];
    for_each_file(given, output, |path, output| {
        let file = input::road_file(path)?;
        let length = exports::list_road_file(&file, &mut text).map_err(Trouble::refused(path))?;
        output.write(&text[..length as usize])?;
        exports::short_stations(&file).map(drop).map_err(Trouble::refused(path))
    })
}

/// `vcp report`.
pub fn report(given: &Given, output: &mut Output) -> Result<u8, Trouble> {
    let (direction, mut first) = (direction(given), true);
    for_each_file(given, output, |path, output| {
        let judgement = Judgement::of_road(&input::road_file(path)?, direction).map_err(Trouble::refused(path))?;
        let between = if first { "" } else { "\n" };
        first = false;
        output.write(format!("{between}{}", report::report(&shown(path), &judgement, 0)).as_bytes())
    })
}

/// The grade in hundredths of a percent that is given; where none is, that of a level road.
fn grade(given: &Given) -> Result<i32, Trouble> {
    Ok(given.option("--grade", |text| GRADE.read_signed(text))?.unwrap_or(LEVEL))
}

/// `vcp check`.
pub fn check(given: &Given, output: &mut Output) -> Result<u8, Trouble> {
    let speed = given.needed("--speed", |text| WHOLE.read(text))?;
    let purpose = given.needed("--purpose", purpose::read)?;
    let (grade, direction) = (grade(given)?, direction(given));
    let path = given.file();
    let survey = Survey::read(path, input::open(path)?)?;
    let judgement = Judgement::of_heights(speed, purpose, grade, &survey.heights, direction);
    let judgement = judgement.map_err(Trouble::refused(path))?;
    output.write(report::report(&shown(path), &judgement, survey.first).as_bytes()).map(|()| ANSWERED)
}

/// `vcp passing`.
pub fn passing(given: &Given, output: &mut Output) -> Result<u8, Trouble> {
    let distance = given.operand(1, |text| WHOLE.read(text))?;
    let path = given.file();
    let passing = Passing::of_road(&input::road_file(path)?, distance).map_err(Trouble::refused(path))?;
    output.write(report::passing(&shown(path), &passing).as_bytes()).map(|()| ANSWERED)
}

/// The lanes that are to be drawn: one, and where both are the other. Passing is marked towards rising stations alone.
fn lanes(given: &Given) -> Result<(Direction, Option<Direction>), Trouble> {
    let (back, both) = (given.is_there("--back"), given.is_there("--both-lanes"));
    if back && both {
        return Err(given.wrong("--back does not go with --both-lanes"));
    }
    if back && given.is_there("--passing") {
        return Err(given.wrong("--passing does not go with --back: it is for rising stations"));
    }
    Ok((direction(given), both.then_some(Direction::Falling)))
}

/// The picture of a road file with one lane or both, and with rows for passing where a passing distance is given.
fn picture_of(
    file: &[u8],
    (lane, other_lane): (Direction, Option<Direction>),
    distance: Option<u32>,
) -> Result<String, Refusal> {
    let judgement = Judgement::of_road(file, lane)?;
    let other = other_lane.map(|lane| Judgement::of_road(file, lane)).transpose()?;
    let passing = distance.map(|distance| Passing::of_road(file, distance)).transpose()?;
    let drawing = Drawing::of_road(file, &judgement)?;
    let other_lane = other.as_ref().map(drawing::lane);
    Ok(picture::svg(&Profile { other_lane, ..drawing.profile(passing.as_ref()) }))
}

/// `vcp plot`.
pub fn plot(given: &Given, output: &mut Output) -> Result<u8, Trouble> {
    let distance = given.option("--passing", |text| WHOLE.read(text))?;
    let (lanes, path) = (lanes(given)?, given.file());
    let picture = picture_of(&input::road_file(path)?, lanes, distance).map_err(Trouble::refused(path))?;
    write_answer(given, output, picture.as_bytes())
}

/// A command that answers a road file has a place for it.
fn not_for_a_terminal(given: &Given) -> Result<(), Trouble> {
    let standard = given.output_file().is_none_or(output::is_standard);
    if standard && io::stdout().is_terminal() {
        return Err(given.wrong("a road file is not for a terminal: name a file with -o"));
    }
    Ok(())
}

/// `vcp road`.
pub fn road(given: &Given, output: &mut Output) -> Result<u8, Trouble> {
    not_for_a_terminal(given)?;
    let path = given.file();
    let file = roadtext::road_file(&input::text(path)?).map_err(|faults| faulty_text(path, &faults))?;
    write_answer(given, output, &file)
}

/// The faults of a text, each with its line: the first of many.
fn faulty_text(path: &Path, faults: &[Fault]) -> Trouble {
    let name = shown(path);
    if let [fault @ Fault { refused: true, .. }] = faults {
        return Trouble::Refused(format!("{name}:{fault}"));
    }
    let mut lines: Vec<String> = faults.iter().take(MOST_FAULTS).map(|fault| format!("{name}:{fault}")).collect();
    if let Some(more) = faults.len().checked_sub(MOST_FAULTS).filter(|&more| more > 0) {
        lines.push(format!("{name}: {more} more faults"));
    }
    Trouble::Failed(lines)
}

/// `vcp text`.
pub fn text(given: &Given, output: &mut Output) -> Result<u8, Trouble> {
    let text = roadtext::road_text(&input::road_file(given.file())?).map_err(Trouble::refused(given.file()))?;
    write_answer(given, output, text.as_bytes())
}

/// Reads the version that is wanted of a road file.
fn version(text: &str) -> Result<i64, String> {
    match WHOLE.read(text)? {
        version @ (1 | 2) => Ok(version.into()),
        _ => Err(format!("{text:?} is neither 1 nor 2")),
    }
}

/// A road file in the version that is wanted, which it may have already; where none is, in the other one.
fn in_version(file: &[u8], wanted: Option<i64>) -> Result<Vec<u8>, Refusal> {
    let [own, ..] = roadtext::road_numbers(file)?.head;
    let write = if wanted == Some(own) { exports::rewrite } else { exports::convert };
    let mut written = vec![0; ENOUGH_BYTES];
    let length = write(file, &mut written)?;
    written.truncate(length as usize);
    Ok(written)
}

/// `vcp convert`.
pub fn convert(given: &Given, output: &mut Output) -> Result<u8, Trouble> {
    not_for_a_terminal(given)?;
    let wanted = given.option("--to", version)?;
    // Where standard output is the file, the shell may have emptied it, and it would be refused for that.
    file_to_write(given)?;
    let file = in_version(&input::road_file(given.file())?, wanted).map_err(Trouble::refused(given.file()))?;
    write_answer(given, output, &file)
}

/// Prints a number.
fn print(output: &mut Output, number: u32) -> Result<u8, Trouble> {
    output.write(format!("{number}\n").as_bytes()).map(|()| ANSWERED)
}

/// `vcp distance`.
pub fn distance(given: &Given, output: &mut Output) -> Result<u8, Trouble> {
    let speed = given.operand(0, |text| WHOLE.read(text))?;
    let purpose = given.operand(1, purpose::read)?;
    let grade = grade(given)?;
    print(output, vcp::required_distance(speed, purpose, grade).map_err(Trouble::refused("vcp distance"))?)
}

/// `vcp passing-distance`.
pub fn passing_distance(given: &Given, output: &mut Output) -> Result<u8, Trouble> {
    let manoeuvre = Manoeuvre {
        t1: given.needed("--t1", |text| TENTHS.read(text))?,
        a: given.needed("--a", |text| ACCELERATION.read(text))?,
        v: given.needed("--v", |text| TENTHS.read(text))?,
        m: given.needed("--m", |text| TENTHS.read(text))?,
        t2: given.needed("--t2", |text| TENTHS.read(text))?,
        d3: given.needed("--d3", |text| WHOLE.read(text))?,
    };
    print(output, exports::passing_distance(manoeuvre).map_err(Trouble::refused("vcp passing-distance"))?)
}

/// The sight distance that is given; where none is, the stopping distance of the speed on the level.
fn sight_or_stopping(sight: Option<u32>, speed: u32) -> Result<u32, Refusal> {
    sight.map_or_else(|| vcp::required_distance(speed, purpose::STOPPING, LEVEL), Ok)
}

/// `vcp crest`.
pub fn crest(given: &Given, output: &mut Output) -> Result<u8, Trouble> {
    let speed = given.needed("--speed", |text| WHOLE.read(text))?;
    let drop = given.needed("--drop", |text| GRADE.read(text))?;
    let sight = given.option("--sight", |text| WHOLE.read(text))?;
    let eye = given.number("--eye", HEIGHT, EYE_HEIGHT)?;
    let object = given.number("--object", HEIGHT, OBJECT_HEIGHT)?;
    let length = sight_or_stopping(sight, speed).and_then(|sight| vcp::crest_length(speed, drop, sight, eye, object));
    print(output, length.map_err(Trouble::refused("vcp crest"))?)
}

/// `vcp sag`.
pub fn sag(given: &Given, output: &mut Output) -> Result<u8, Trouble> {
    let speed = given.needed("--speed", |text| WHOLE.read(text))?;
    let rise = given.needed("--rise", |text| GRADE.read(text))?;
    let sight = given.option("--sight", |text| WHOLE.read(text))?;
    let length = sight_or_stopping(sight, speed).and_then(|sight| exports::sag_length(speed, rise, sight));
    print(output, length.map_err(Trouble::refused("vcp sag"))?)
}
