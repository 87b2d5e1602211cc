//! The commands: how each is called, what it says of itself, and what it does.

use crate::answers;
use crate::arguments::{Choice, Given};
use crate::output::Output;
use crate::preview;
use crate::sheet;
use crate::tables;
use crate::trouble::Trouble;

/// The operands that a command takes, by their names; more of the last one where it says so.
#[derive(Clone, Copy)]
pub struct Operands {
    pub names: &'static [&'static str],
    pub more: bool,
}

/// A command.
pub struct Command {
    pub name: &'static str,
    /// What it prints, in one line.
    pub prints: &'static str,
    /// The rest of its help.
    pub details: &'static str,
    pub operands: Operands,
    pub options: &'static [Choice],
    pub run: fn(&Given, &mut Output) -> Result<u8, Trouble>,
}

impl Command {
    /// Its name with its operands.
    pub fn call(&self) -> String {
        let more = if self.operands.more { "..." } else { "" };
        format!("{} {}{more}", self.name, self.operands.names.join(" ")).trim_end().to_string()
    }

    /// How it is called, with its options.
    pub fn usage(&self) -> String {
        let options = self.options.iter().map(|option| match option.needed {
            true => format!(" {}", option.call()),
            false => format!(" [{}]", option.call()),
        });
        format!("vcp {}{}", self.call(), options.collect::<String>())
    }
}

/// An option that may be left out.
const fn choice(name: &'static str, value: &'static str, meaning: &'static str) -> Choice {
    Choice { name, value: Some(value), meaning, needed: false }
}

/// An option without a value.
const fn flag(name: &'static str, meaning: &'static str) -> Choice {
    Choice { name, value: None, meaning, needed: false }
}

/// An option that must be there.
const fn needed(name: &'static str, value: &'static str, meaning: &'static str) -> Choice {
    Choice { name, value: Some(value), meaning, needed: true }
}

const ONE_FILE: Operands = Operands { names: &["FILE"], more: false };
const FILES: Operands = Operands { names: &["FILE"], more: true };

const OUTPUT: Choice = choice("-o", "OUT", "the file to write, whole or not at all (-)");
const FROM: Choice = choice("--from", "M", "the first station (0)");
const TO: Choice = choice("--to", "M", "the last station (the road's end)");
const EYE: Choice = choice("--eye", "M", "height of the eye above the road, in m (1.08)");
const OBJECT: Choice = choice("--object", "M", "height of the object, in m (0.60)");
const SPEED: Choice = needed("--speed", "KMH", "the speed in km/h");
const SIGHT: Choice = choice("--sight", "M", "the sight distance (the stopping distance)");
const BACK: Choice = flag("--back", "for the lane coming back, towards falling stations");
const GRADE: Choice = choice("--grade", "PERCENT", "the road's grade, uphill positive, as -6.00 (0.00)");

pub const COMMANDS: [Command; 16] = [
    Command {
        name: "list",
        prints: "the listing of road files, for programs",
        details: "\
The first line has the word VCP, the version, the speed in km/h, the stopping
and the decision distance in m, on the least of the road's grades, or 0 if none
is negative. Each line behind it is a zone: its letter, its first and its last
station.
  S  stopping sight is lacking
  D  decision sight is lacking
  R  reduced decision zone: stopping sight is there, decision sight is not
  s  stopping is not judged: the road ends too soon
  d  the decision is not judged
The listing of a refused file is one line, 'refused' and the number. A road over
8000 m is refused 8 here; 'vcp report' takes it. All of it is for drivers
towards rising stations; 'vcp report --back' is for the others.",
        operands: FILES,
        options: &[],
        run: answers::list,
    },
    Command {
        name: "report",
        prints: "the zones of road files in words, for people",
        details: "\
For each road: the distances that are needed on its grade, which is the least of
the road's grades, or 0 if none is negative; at how many stations sight is
judged, lacking and not judged; every zone in words, with its length. There is a
station each metre, and it stands for the metre around it: a zone of one station
is 1 m long. The share is of the judged stations. A station is not judged where
the road ends before the distance does. In the reduced decision zone stopping
sight is there and decision sight is not.
With --back it is for drivers towards falling stations: the grade is the
greatest of the road's grades, or 0 if none is positive, which they drive down,
and what is not judged is at the road's start. Stations and the sign of the
grade stay those of the road as it is measured.",
        operands: FILES,
        options: &[BACK],
        run: answers::report,
    },
    Command {
        name: "heights",
        prints: "the height at each station, as CSV",
        details: "Stations and heights are in m, the heights with four decimals.",
        operands: ONE_FILE,
        options: &[FROM, TO, choice("--every", "M", "only every so many metres (1)"), OUTPUT],
        run: tables::heights,
    },
    Command {
        name: "sight",
        prints: "the available sight from each station, as CSV",
        details: "\
Stations and sight are in m, in the direction of rising stations, with --back in
that of falling ones. The table begins with --from either way. Sight ends where
the object is hidden first, at the farthest distance, or with the road.
The slow engine gives the same sights in a way that anyone can follow: for each
object station every station between is looked at, with nothing remembered. Its
time grows with the square of the sight: all of a level road of 8 km takes it
minutes, and of a longer one hours, unless --farthest, or --from and --to, ask
for less. With --both the sights of the quick and of the slow engine stand side
by side, and a line on standard error says that they agree; where they do not,
it says so, and the status is 2.",
        operands: ONE_FILE,
        options: &[
            EYE,
            OBJECT,
            choice("--farthest", "M", "how far is looked at most (8000)"),
            FROM,
            TO,
            BACK,
            flag("--slow", "by the slow engine"),
            flag("--both", "by both engines"),
            OUTPUT,
        ],
        run: tables::sight,
    },
    Command {
        name: "check",
        prints: "the report for heights that were surveyed",
        details: "\
HEIGHTS is CSV as 'vcp heights' writes it, with or without the header: on each
line a station and its height in m, with at most four decimals, one line a
metre, at most 100001 of them. The first station may be any. A gap, a station
twice or a line that cannot be read is an error with its line. Without --grade
the road is taken as level: give the grade that 'vcp report' names for it.
With --back give the grade of 'vcp report --back': a grade is that of rising
stations either way, and whoever comes back drives down what rises.",
        operands: Operands { names: &["HEIGHTS"], more: false },
        options: &[SPEED, needed("--purpose", "PURPOSE", "the decision, A to E or 1 to 5"), GRADE, BACK],
        run: answers::check,
    },
    Command {
        name: "plot",
        prints: "a picture of the profile and its zones, as SVG",
        details: "\
The heights are stretched; the picture says how many times. The stopping and
the decision distance are those on the least of the road's grades, or 0 if none
is negative. Above the curves stand their places, counted from 0, where there is
room. Where a passing distance is given there are two rows more: where passing
sight is lacking, and where passing is not judged. A road over 8000 m is drawn
in stretches of at most 8000 m, one below the other; a zone or a curve that goes
on in the next stretch stands in both.
With --back it is the picture of the lane coming back, on the greatest of the
road's grades, or 0 if none is positive. With --both-lanes there is a set of
rows for each lane, and below the road a second line for the lane coming back.
Passing is for drivers towards rising stations: its rows are in their set.
Neither --passing nor --both-lanes goes with --back.",
        operands: ONE_FILE,
        options: &[
            choice("--passing", "M", "the passing distance ('vcp passing-distance')"),
            BACK,
            flag("--both-lanes", "both lanes, each with its rows"),
            OUTPUT,
        ],
        run: answers::plot,
    },
    Command {
        name: "preview",
        prints: "what another length of a curve would do",
        details: "\
For each letter of 'vcp list' it prints the zones of the road as it is and of
the road with the new length, side by side; where the letter gains stations,
which have it after the change and not before, and where it loses some; and how
many stations that is. A \" stands for the zone above it, which reaches into its
row too. Stations that S or D gains lack sight after the change, and those that
they lose have it. The last line says at how many stations the two roads differ.
With --svg it is a picture instead, on standard output (> OUT.svg): both
profiles, and for each letter a row of zones before and one after. Curves are
counted from 0, in the order of 'vcp text': these are the numbers above the
curves in the picture of 'vcp plot'. The road itself is not touched: no file is
written unless -o names one for the changed road, and that may be neither FILE
nor - nor a name in .svg. A refusal of the changed road names it as 'FILE with
curve ...'. A road over 8000 m is refused 8 here. All of it is for drivers
towards rising stations.",
        operands: ONE_FILE,
        options: &[
            needed("--curve", "K", "the curve's place, counted from 0"),
            needed("--length", "M", "its new length in m"),
            flag("--svg", "the picture, as SVG"),
            choice("-o", "OUT", "the file to write the changed road to (none)"),
        ],
        run: preview::preview,
    },
    Command {
        name: "passing",
        prints: "where a road lacks the sight to pass, in words",
        details: "\
DISTANCE is the passing distance in m, as 'vcp passing-distance' prints it. Said
is at how many stations passing sight is judged, lacking and not judged, and
every zone where it is lacking or not judged, with its length. It is lacking
where a driver towards rising stations does not see the whole distance, eye and
object being 1.08 m high, and not judged where the road ends before the distance
does. As in the report a station stands for the metre around it, and the share
is of the judged ones.",
        operands: Operands { names: &["FILE", "DISTANCE"], more: false },
        options: &[],
        run: answers::passing,
    },
    Command {
        name: "road",
        prints: "a road file from a readable text",
        details: "\
Each line of the text has one item; what follows a # is a comment.
  speed 90 km/h
  purpose 1
  length 1500 m
  start height 102.5 m
  first grade 4.00 %
  curve 480 m, 60 m, -2.00 %
The first five stand once each, in any order. A line 'version 2' makes the file
one of version 2, whose road has at most 100000 m; with 'version 1', or without
such a line, it is of version 1, and its road has at most 8000 m. Curves stand
in the road's order, each with its PVI, its length and its grade out; there are
at most 32. One of length 0 is a break in grade: by more than 0.50 % it is
refused 25. A space parts a number from its unit. The start height may have four
decimals and a grade two; the other numbers are whole. Purposes 1 to 5 are the
decisions A to E. The text has at most 1 MiB.
What cannot be read, and what is refused of the road, is said with its line.",
        operands: Operands { names: &["TEXT"], more: false },
        options: &[OUTPUT],
        run: answers::road,
    },
    Command {
        name: "text",
        prints: "the text of a road file",
        details: "'vcp road' turns it into the same file again.",
        operands: ONE_FILE,
        options: &[OUTPUT],
        run: answers::text,
    },
    Command {
        name: "convert",
        prints: "a road file in the other version",
        details: "\
A file of version 2 becomes one of version 1, which programs that know no other
can read, and a file of version 1 becomes one of version 2. The road in it is
the same, and converted back it is FILE again, byte for byte. With --to OUT has
that version, whichever FILE has: a file that has it already is written as it
is. A road over 8000 m is refused 27 where version 1 is wanted. OUT may not be
FILE itself. Without -o the file goes to standard output, which may not be a
terminal.",
        operands: ONE_FILE,
        options: &[choice("--to", "VERSION", "the version of OUT, 1 or 2 (the one FILE has not)"), OUTPUT],
        run: answers::convert,
    },
    Command {
        name: "distance",
        prints: "the required distance in m",
        details: "\
SPEED is in km/h. PURPOSE is a number or a name: 0, stop or stopping; 1 to 5, A
to E or decision-A to decision-E. AASHTO's decisions are to stop, A on a rural
and B on an urban road, or to change speed, path or direction, C on a rural, D
on a suburban and E on an urban road. C to E need the same distance on every
grade.",
        operands: Operands { names: &["SPEED", "PURPOSE"], more: false },
        options: &[GRADE],
        run: answers::distance,
    },
    Command {
        name: "passing-distance",
        prints: "the distance to see before passing, in m",
        details: "\
How far a driver has to see to pass another car, by the older Green Books:
d1 + d2 + d3 + d4, rounded up to 5 m. d1 = 0.278 t1 (v - m + a t1 / 2) is driven
in the initial manoeuvre, d2 = 0.278 v t2 in the left lane; d3 is left to the
oncoming car at the end, and d4, two thirds of d2, is what that car drives in
the last two thirds of that time. The values are in the units of the Green
Book's tables.",
        operands: Operands { names: &[], more: false },
        options: &[
            needed("--t1", "S", "time of the initial manoeuvre, 3.6 to 4.5 s"),
            needed("--a", "KMH/S", "average acceleration, 2.25 to 2.41 km/h/s"),
            needed("--v", "KMH", "average speed of the passing car, 30 to 130 km/h"),
            needed("--m", "KMH", "how much faster it is than the other, 10 to 20 km/h"),
            needed("--t2", "S", "time in the left lane, 9.3 to 11.3 s"),
            needed("--d3", "M", "clearance to the oncoming car, 30 to 90 m"),
        ],
        run: answers::passing_distance,
    },
    Command {
        name: "sheet",
        prints: "all required distances on a level road in m",
        details: "\
A row for each speed from 20 to 130 km/h, in it the distance for stopping and
for each decision. Those of the decisions C to E hold on every grade; for the
others 'vcp distance' has --grade. With --svg it is a page of A4 to print at its
actual size and laminate.",
        operands: Operands { names: &[], more: false },
        options: &[flag("--svg", "the page, as SVG"), OUTPUT],
        run: sheet::sheet,
    },
    Command {
        name: "crest",
        prints: "the least length of a crest in m",
        details: "\
The least even length over which the object is seen from the sight distance, and
which is at least 0.6 m for each km/h of the speed. Without --sight the sight
distance is the stopping distance of that speed on the level. For a road that
falls give --sight, with what 'vcp distance' prints for --grade.",
        operands: Operands { names: &[], more: false },
        options: &[
            SPEED,
            needed("--drop", "PERCENT", "grade in less grade out, as 6.00 from 4 % to -2 %"),
            SIGHT,
            EYE,
            OBJECT,
        ],
        run: answers::crest,
    },
    Command {
        name: "sag",
        prints: "the least length of a sag in m",
        details: "\
The least even length in which headlights reach the sight distance at night, by
AASHTO's headlight rule, and which is at least 0.6 m for each km/h of the speed.
Without --sight the sight distance is the stopping distance of that speed on the
level. For a road that falls give --sight, with what 'vcp distance' prints for
--grade.",
        operands: Operands { names: &[], more: false },
        options: &[SPEED, needed("--rise", "PERCENT", "grade out less grade in, as 6.00 from -2 % to 4 %"), SIGHT],
        run: answers::sag,
    },
];
