//! `vcp preview`: read back from its lines, and compared with the second calculation.

mod common;

use std::fs::{self, File};
use std::os::fd::OwnedFd;
use std::os::unix::fs::symlink;
use std::os::unix::net::UnixStream;
use std::path::{Path, PathBuf};
use std::process::Stdio;

use common::{command, expect, expect_error, expect_wrong, folder, names, root, run, run_with, LONG_ROAD, SHORT_FILE};
use sight_tests::drawn::{Change, Drawn};
use sight_tests::pages::{block, text};
use sight_tests::random::Random;
use sight_tests::reference::file::{bytes, read};
use sight_tests::reference::marks::runs;
use sight_tests::reference::road::{Curve, Road};
use sight_tests::roads::{self, SHARP_BREAK, SHARP_BREAK_REASON};

const NAMES: [&str; 5] = [
    "S stopping sight lacking",
    "D decision sight lacking",
    "R reduced decision zone",
    "s stopping not judged",
    "d decision not judged",
];

/// The items of a table, line by line.
type Table = Vec<Vec<String>>;

fn words(words: &[&str]) -> Vec<String> {
    words.iter().map(|word| word.to_string()).collect()
}

// ---- reading back
/// A table below its heads, which are single words. Each item ends where its head does, but for the first, which begin alike.
fn table(lines: &[&str]) -> Table {
    let heads = lines[0];
    let is_end = |&end: &usize| !heads[..end].ends_with(' ') && (end == heads.len() || heads[end..].starts_with(' '));
    let ends: Vec<usize> = (1..=heads.len()).filter(is_end).collect();
    let line = |line: &&str| {
        let name = NAMES.iter().find(|name| line.starts_with(*name)).map_or(ends[0], |name| name.len());
        let mut items = vec![line[..name].to_string()];
        let mut from = name;
        for &end in &ends[1..] {
            items.push(line.get(from..end.min(line.len())).unwrap_or_default().trim().to_string());
            assert!(line.len() <= end || line[end..].starts_with(' '), "{heads}\n{line}");
            from = end;
        }
        items
    };
    lines.iter().map(line).collect()
}

/// The parts of a preview: its title, the zones before and after, those gained, those lost, the sums, and how many differ.
fn parts(preview: &str) -> (String, [Table; 4], String) {
    assert!(preview.is_ascii() && preview.ends_with('\n') && !preview.contains(" \n"), "{preview}");
    assert!(preview.lines().skip(2).all(|line| line.len() <= 80), "{preview}");
    let parts: Vec<Vec<&str>> = preview.split("\n\n").map(|part| part.lines().collect()).collect();
    let [title, zones, gained, lost, sums, differing] = &parts[..] else { panic!("{preview}") };
    let sides = format!("{:>1$}", "before", zones[1].find("from").expect("a head") + 4);
    let sides = format!("{sides}{:>1$}", "after", zones[1].rfind("from").expect("a head") + 4 - sides.len());
    assert_eq!(zones[0], sides, "each side stands above its first column");
    (title.join("\n"), [table(&zones[1..]), table(gained), table(lost), table(sums)], differing.join("\n"))
}

// ---- the second calculation
/// What is said of a zone.
fn zone([first, last]: [u32; 2]) -> [String; 3] {
    [first.to_string(), last.to_string(), format!("{} m", last - first + 1)]
}

/// Whether two zones overlap or touch.
fn meet([first, last]: [u32; 2], [begin, end]: [u32; 2]) -> bool {
    begin <= last + 1 && first <= end + 1
}

/// What a row says of one side: its zone; where it has none, whether one of that side, which stands above, meets the other
/// side's zone.
fn half(own: Option<[u32; 2]>, zones: &[[u32; 2]], other: Option<[u32; 2]>) -> [String; 3] {
    let reaches_in = other.is_some_and(|other| zones.iter().any(|&zone| meet(zone, other)));
    let again = if reaches_in { "\"" } else { "" };
    own.map_or([again, "", ""].map(str::to_string), zone)
}

/// The zones of a letter before and after: each before beside the first one after that overlaps or touches it and is free, all
/// others alone, in the order in which the rows begin.
fn beside(before: &[[u32; 2]], after: &[[u32; 2]]) -> Vec<[Option<[u32; 2]>; 2]> {
    let mut free = after.to_vec();
    let mut rows = Vec::new();
    for &[first, last] in before {
        let partner = free.iter().position(|&other| meet([first, last], other));
        rows.push([Some([first, last]), partner.map(|place| free.remove(place))]);
    }
    rows.extend(free.into_iter().map(|alone| [None, Some(alone)]));
    rows.sort_by_key(|row| row.iter().flatten().map(|&[first, _]| first).min());
    rows
}

/// The tables that are expected: the zones, those gained, those lost, and the sums.
fn expected([before, after]: &[Drawn; 2]) -> [Table; 4] {
    let mut zones = vec![words(&["zone", "from", "to", "length", "from", "to", "length"])];
    let mut sums = vec![words(&["stations", "before", "after", "gained", "lost"])];
    let [mut gained, mut lost] = ["gained", "lost"].map(|head| vec![words(&[head, "from", "to", "length"])]);
    let only =
        |own: &Drawn, other: &Drawn| own.marks.iter().zip(&other.marks).map(|(own, other)| own & !other).collect();
    let [gained_marks, lost_marks]: [Vec<u8>; 2] = [only(after, before), only(before, after)];
    for (bit, name) in (0..).zip(NAMES) {
        let [old, new] = [before, after].map(|drawn| runs(&drawn.marks, bit));
        let mut rows: Table = Vec::new();
        for [zone, other] in beside(&old, &new) {
            rows.push([&[name.to_string()], &half(zone, &old, other)[..], &half(other, &new, zone)[..]].concat());
        }
        if rows.is_empty() {
            rows.push(words(&[name, "", "", "", "", "", ""]));
        }
        for (place, _) in [(1, &old), (4, &new)].iter().filter(|(_, zones)| zones.is_empty()) {
            rows[0][*place] = "nowhere".to_string();
        }
        zones.extend(rows);
        for (table, marks) in [(&mut gained, &gained_marks), (&mut lost, &lost_marks)] {
            table.extend(runs(marks, bit).into_iter().map(|run| [&[name.to_string()], &zone(run)[..]].concat()));
        }
        let many = |marks: &[u8]| marks.iter().filter(|&mark| mark >> bit & 1 == 1).count().to_string();
        let counts = [&before.marks, &after.marks, &gained_marks, &lost_marks].map(|marks| many(marks));
        sums.push([&[name.to_string()], &counts[..]].concat());
    }
    for table in [&mut gained, &mut lost].into_iter().filter(|table| table.len() == 1) {
        *table = vec![words(&[&table[0][0], "nowhere"])];
    }
    [zones, gained, lost, sums]
}

/// The title of a change's preview.
fn title(name: &str, change: &Change, grade: i32) -> String {
    let Change { before: road, after, place } = change;
    let [old, new] = [road, after].map(|road| road.curves[*place]);
    let decision = char::from(b'A' + road.purpose - 1);
    let minus = if grade < 0 { "-" } else { "" };
    format!(
        "{name}: curve {place}, PVI {} m: length {} m -> {} m\n{} km/h, decision {decision}, marked with grade \
         {minus}{}.{:02} %, from station 0 to {} (rising)",
        old.pvi,
        old.length,
        new.length,
        road.speed,
        grade.abs() / 100,
        grade.abs() % 100,
        road.length
    )
}

/// Compares the previews of a change, the one in words and the picture, with the second calculation, and answers how many stations
/// differ.
fn compare(folder: &Path, change: &Change) -> u32 {
    let [place, length] = [change.place.to_string(), change.after.curves[change.place].length.to_string()];
    let arguments = ["preview", "-", "--curve", &place, "--length", &length];
    let ended = run_with(folder, &arguments, &bytes(&change.before)).0;
    assert_eq!((ended.errors.as_str(), ended.status), ("", 0), "{:?}", change.before);
    let drawn = change.drawn();
    let (said, tables, last) = parts(&ended.output);
    assert_eq!(said, title("-", change, drawn[0].grade));
    assert_eq!(tables, expected(&drawn), "{}", ended.output);
    let (differing, stations) = (drawn[0].differing(&drawn[1]), change.before.length + 1);
    let count = match differing {
        1 => format!("1 of {stations} stations differs"),
        _ => format!("{differing} of {stations} stations differ"),
    };
    assert_eq!(last, count);
    let ended = run_with(folder, &[&arguments[..], &["--svg"]].concat(), &bytes(&change.before)).0;
    assert_eq!((ended.errors.as_str(), ended.status), ("", 0), "{:?}", change.before);
    assert!(ended.output == change.picture(&drawn), "{:?}", change.before);
    differing
}

// ---- changes
#[test]
fn random_roads() {
    let folder = folder("preview_random");
    let mut random = Random::new(114);
    let mut differing = [0; 2];
    for round in 0..400 {
        let room = random.within(50..=300);
        let crests = roads::steeper(roads::run_of_crests(&mut random, room));
        let mut road = if round % 8 == 0 { roads::any_road(&mut random) } else { crests };
        road.speed = random.one_of(&[20, 25, 30, 35]);
        let change = if round % 4 == 0 { Change::any } else { Change::with_room };
        if let Some(change) = change(&mut random, &road) {
            differing[usize::from(compare(&folder, &change) > 0)] += 1;
        }
    }
    assert!(differing[0] > 50 && differing[1] > 50, "{differing:?} change nothing and something");
    assert!(names(&folder).is_empty());
}

/// The longest road, a zone that is gone, one that is new, and a length that stays as it is.
#[test]
fn edges() {
    let folder = folder("preview_edges");
    let crest = |length: u16| Curve { pvi: 1_000, length, grade_out: -600 };
    let road = |version: u16, length: u32, curve: Curve| Road {
        version,
        speed: 40,
        purpose: 1,
        length,
        start_height: 0,
        first_grade: 600,
        curves: vec![curve],
    };
    for (length, old, new) in [(8_000, 2, 2_000), (2_000, 2_000, 2), (2_000, 100, 100), (2_000, 60, 62)] {
        for version in [1, 2] {
            let change = Change::of(&road(version, length, crest(old)), 0, new).expect("both lengths are accepted");
            assert_eq!(compare(&folder, &change) == 0, old == new, "{old} m, {new} m");
        }
    }
    for (length, words) in [("2", "957 989 33 m 957 989 33 m"), ("2000", "957 989 33 m nowhere")] {
        let arguments = ["preview", "-", "--curve", "0", "--length", length];
        let ended = run_with(&folder, &arguments, &bytes(&road(1, 2_000, crest(2)))).0;
        let line = ended.output.lines().find_map(|line| line.strip_prefix(NAMES[0])).expect("a line of S");
        assert!(line.split_whitespace().eq(words.split(' ')), "{line}");
    }
}

/// A zone that moves by its whole length touches the place where it was, and stands beside it; one that a station parts from it
/// stands alone, and one that touches a zone above has the sign for it.
#[test]
fn zones_that_touch() {
    let folder = folder("preview_touch");
    for (length, first_grade, curves, new, words) in [
        (162, 800, [(40, 400), (82, -400)], (1, 20), "38 44 7 m 45 60 16 m"),
        (196, 500, [(38, -500), (93, 500)], (0, 10), "25 25 1 m 24 24 1 m"),
        (175, 900, [(25, 500), (65, -400)], (1, 26), "19 24 6 m"),
        (204, 800, [(23, 400), (82, -400)], (1, 12), "61 62 2 m"),
        (169, 700, [(51, 0), (89, 300)], (0, 10), "28 29 2 m \""),
    ] {
        let curves = curves.map(|(pvi, grade_out)| Curve { pvi, length: 2, grade_out }).to_vec();
        let road = Road { version: 1, speed: 40, purpose: 1, length, start_height: 0, first_grade, curves };
        compare(&folder, &Change::of(&road, new.0, new.1).expect("it is accepted"));
        let (place, length) = (new.0.to_string(), new.1.to_string());
        let ended = run_with(&folder, &["preview", "-", "--curve", &place, "--length", &length], &bytes(&road)).0;
        let mut lines = ended.output.lines().filter_map(|line| line.strip_prefix(NAMES[2]));
        assert!(lines.any(|line| line.split_whitespace().eq(words.split(' '))), "{}", ended.output);
    }
}

/// Zones that grow together, and then part again: where a zone reaches into further rows, a sign stands for it there.
#[test]
fn zones_that_join_and_part() {
    let (folder, _) = with_road("preview_join");
    let joined = ["434 567 134 m 434 818 385 m", "575 687 113 m \"", "695 818 124 m \""];
    let parted = ["434 818 385 m 434 567 134 m", "\" 575 687 113 m", "\" 695 818 124 m"];
    for (file, length, changed, expected) in [("a.vcp", "2", "b.vcp", joined), ("b.vcp", "40", "c.vcp", parted)] {
        let ended = run(&folder, &["preview", file, "--curve", "3", "--length", length, "-o", changed]);
        let rows = ended.output.lines().filter_map(|line| line.strip_prefix(NAMES[1])).take(3);
        let rows: Vec<String> = rows.map(|row| row.split_whitespace().collect::<Vec<_>>().join(" ")).collect();
        assert_eq!(rows, expected, "{}", ended.output);
    }
}

/// The number that stands above a curve in the picture of `vcp plot` is the one that names it here.
#[test]
fn numbers_of_the_picture() {
    let (folder, road) = with_road("preview_numbers");
    let picture = run(&folder, &["plot", "a.vcp"]).output;
    for (place, curve) in road.curves.iter().enumerate() {
        let x = 22_000 + i64::from(curve.pvi) * 128_000 / i64::from(road.length);
        assert!(picture.contains(&format!(r#"x="{x}" y="11500">{place}</text>"#)), "{place}");
        let (place, length) = (place.to_string(), curve.length.to_string());
        let ended = run(&folder, &["preview", "a.vcp", "--curve", &place, "--length", &length]);
        let title = format!("a.vcp: curve {place}, PVI {} m: length {length} m -> {length} m\n", curve.pvi);
        assert!(ended.output.starts_with(&title) && ended.output.ends_with("\n0 of 1501 stations differ\n"));
    }
}

/// The call that the README shows, and its picture.
#[test]
fn call_of_the_readme() {
    let readme = text("README.md");
    let call = readme.lines().find(|line| line.starts_with("$ vcp preview ")).expect("the README shows a preview");
    let shown = block(&readme, call);
    let arguments: Vec<&str> = call.split(' ').skip(2).collect();
    expect(&root(), &arguments, &format!("{}\n", shown.join("\n")));
    expect(&root(), &[&arguments[..], &["--svg"]].concat(), &text("docs/preview.svg"));
}

// ---- the file of the changed road
/// A folder with the README's road as `a.vcp`, and that road.
fn with_road(name: &str) -> (PathBuf, Road) {
    let folder = folder(name);
    fs::copy(root().join("roads/three-crests.vcp"), folder.join("a.vcp")).unwrap();
    let road = read(&fs::read(folder.join("a.vcp")).unwrap()).expect("the road is accepted");
    (folder, road)
}

const CALL: [&str; 6] = ["preview", "a.vcp", "--curve", "3", "--length", "80"];

/// No file is written but the one that `-o` names, which has the changed road; what is printed is the same.
#[test]
fn file_of_the_changed_road() {
    let (folder, road) = with_road("preview_file");
    let file = fs::read(folder.join("a.vcp")).unwrap();
    let change = Change::of(&road, 3, 80).expect("it is accepted");
    for options in [&[][..], &["--svg"]] {
        let shown = run(&folder, &[&CALL, options].concat());
        assert_eq!((shown.errors.as_str(), shown.status), ("", 0));
        assert_eq!(names(&folder), ["a.vcp"]);
        expect(&folder, &[&CALL, options, &["-o", "b.vcp"]].concat(), &shown.output);
        assert_eq!(fs::read(folder.join("b.vcp")).unwrap(), bytes(&change.after));
        assert_eq!(fs::read(folder.join("a.vcp")).unwrap(), file);
        fs::remove_file(folder.join("b.vcp")).unwrap();
    }
    // A second name of the road's own file becomes that of another file.
    fs::hard_link(folder.join("a.vcp"), folder.join("b.vcp")).unwrap();
    assert_eq!(run(&folder, &[&CALL[..], &["-o", "b.vcp"]].concat()).status, 0);
    assert_eq!(fs::read(folder.join("a.vcp")).unwrap(), file);
    assert_eq!(fs::read(folder.join("b.vcp")).unwrap(), bytes(&change.after));
    // The changed road has the zones that were shown behind, and with the old length it is the road as it was.
    expect(&folder, &[&CALL[..], &["-o", "b.vcp"]].concat(), &run(&folder, &CALL).output);
    expect(&folder, &["plot", "b.vcp"], &Drawn::of(&change.after).picture(&change.after));
    let back = ["preview", "b.vcp", "--curve", "3", "--length", "40", "-oc.vcp"];
    assert_eq!(run(&folder, &back).status, 0);
    assert_eq!(fs::read(folder.join("c.vcp")).unwrap(), file);
    assert_eq!(names(&folder), ["a.vcp", "b.vcp", "c.vcp"]);
}

/// The road itself is not replaced, by whatever name; standard output is no file for the changed one, nor is a picture.
#[test]
fn files_that_are_not_written() {
    let (folder, _) = with_road("preview_not_written");
    let file = fs::read(folder.join("a.vcp")).unwrap();
    symlink("a.vcp", folder.join("link.vcp")).unwrap();
    for name in ["a.vcp", "./a.vcp", "link.vcp"] {
        let line = format!("{name}: it would replace what it is made from\n");
        expect_error(&folder, &[&CALL[..], &["-o", name]].concat(), 2, &line);
    }
    for name in ["-", "/dev/stdout"] {
        expect_wrong(&folder, &[&CALL[..], &["-o", name]].concat(), "-o needs a file: standard output has the preview");
    }
    for name in ["b.svg", "B.SVG"] {
        let reason = "-o is for the changed road: standard output has the picture";
        expect_wrong(&folder, &[&CALL[..], &["-o", name, "--svg"]].concat(), reason);
        expect_wrong(&folder, &[&CALL[..], &["-o", name]].concat(), reason);
    }
    let ended = run(&folder, &[&CALL[..], &["-o", "none/b.vcp"]].concat());
    let line = "none/b.vcp: No such file or directory\n";
    assert_eq!((ended.output, ended.errors.as_str(), ended.status), (run(&folder, &CALL).output, line, 2));
    assert_eq!(fs::read(folder.join("a.vcp")).unwrap(), file);
    assert_eq!(names(&folder), ["a.vcp", "link.vcp"]);
}

/// Where the preview cannot be printed there is no file; where nobody reads it to its end there is.
#[test]
fn previews_that_are_not_printed() {
    let (folder, _) = with_road("preview_not_printed");
    let into = |output: Stdio| {
        let mut running = command();
        running.args(CALL).args(["-o", "b.vcp"]).current_dir(&folder).stdout(output).stderr(Stdio::piped());
        let ended = running.spawn().and_then(|running| running.wait_with_output()).expect("the command runs and ends");
        (ended.status.code(), String::from_utf8(ended.stderr).expect("errors are text"))
    };
    let full = File::options().write(true).open("/dev/full").expect("the system has a full device");
    assert_eq!(into(full.into()), (Some(2), "standard output: No space left on device\n".to_string()));
    assert_eq!(names(&folder), ["a.vcp"]);
    let closed = OwnedFd::from(UnixStream::pair().expect("two ends of a pipe").0);
    assert_eq!(into(closed.into()), (Some(0), String::new()));
    assert_eq!(names(&folder), ["a.vcp", "b.vcp"]);
}

// ---- refusals
/// First the road's own, then that of the place, then the changed road's, which is named as such. Nothing is written.
#[test]
fn refused_changes() {
    let (folder, road) = with_road("preview_refused");
    fs::write(folder.join("b.vcp"), SHARP_BREAK).unwrap();
    fs::write(folder.join("c.vcp"), "before").unwrap();
    let with_first = |many: usize| bytes(&Road { curves: road.curves[..many].to_vec(), ..road.clone() });
    fs::write(folder.join("e.vcp"), with_first(1)).unwrap();
    fs::write(folder.join("f.vcp"), with_first(0)).unwrap();
    // The same road a little longer than any that a preview takes, and with a break at its end that is refused after that.
    let long = Road { version: 2, length: 8_001, ..road.clone() };
    fs::write(folder.join("g.vcp"), bytes(&long)).unwrap();
    let sharp_end = Curve { pvi: 8_001, length: 0, grade_out: 51 };
    fs::write(folder.join("h.vcp"), bytes(&Road { curves: [&long.curves[..], &[sharp_end]].concat(), ..long }))
        .unwrap();
    let no_curve = "refused 26: there is no curve at this place: places are counted from 0";
    let before = "refused 13: a curve begins before the end of the curve listed just before it";
    let odd = "refused 11: a curve's length is odd or over 2,000 m";
    let sharp = &format!("refused 25: {SHARP_BREAK_REASON}");
    let outside = "refused 12: a curve begins before station 0 or ends after the road";
    let long_road = &format!("refused 8: {LONG_ROAD}");
    for (file, curve, length, name, reason) in [
        ("b.vcp", "0", "0", "b.vcp", &sharp[..]),
        ("b.vcp", "0", "20", "b.vcp", sharp),
        ("b.vcp", "9", "81", "b.vcp", sharp),
        ("c.vcp", "9", "81", "c.vcp", &format!("refused 1: {SHORT_FILE}")),
        ("g.vcp", "3", "80", "g.vcp", long_road),
        ("g.vcp", "3", "81", "g.vcp", long_road),
        ("g.vcp", "9", "80", "g.vcp", long_road),
        ("h.vcp", "9", "81", "h.vcp", long_road),
        ("a.vcp", "7", "80", "a.vcp with 7 curves", no_curve),
        ("a.vcp", "7", "81", "a.vcp with 7 curves", no_curve),
        ("a.vcp", "4294967299", "80", "a.vcp with 7 curves", no_curve),
        ("e.vcp", "1", "80", "e.vcp with 1 curve", no_curve),
        ("f.vcp", "0", "80", "f.vcp with 0 curves", no_curve),
        ("a.vcp", "3", "81", "a.vcp with curve 3, PVI 720 m, 81 m long", odd),
        ("a.vcp", "3", "2002", "a.vcp with curve 3, PVI 720 m, 2002 m long", odd),
        ("a.vcp", "3", "65616", "a.vcp with curve 3, PVI 720 m, 65616 m long", odd),
        ("a.vcp", "3", "4294967376", "a.vcp with curve 3, PVI 720 m, 4294967376 m long", odd),
        ("a.vcp", "0", "802", "a.vcp with curve 0, PVI 400 m, 802 m long", outside),
        ("a.vcp", "6", "1002", "a.vcp with curve 6, PVI 1000 m, 1002 m long", outside),
        ("a.vcp", "3", "82", "a.vcp with curve 3, PVI 720 m, 82 m long", before),
        ("a.vcp", "0", "362", "a.vcp with curve 0, PVI 400 m, 362 m long", before),
        ("a.vcp", "3", "0", "a.vcp with curve 3, PVI 720 m, 0 m long", sharp),
    ] {
        for options in [&[][..], &["--svg"], &["-o", "d.vcp"], &["-o", "c.vcp", "--svg"]] {
            if options.get(1) != Some(&file) {
                let arguments = [&["preview", file, "--curve", curve, "--length", length], options].concat();
                expect_error(&folder, &arguments, 1, &format!("{name}: {reason}\n"));
            }
        }
    }
    assert_eq!(fs::read_to_string(folder.join("c.vcp")).unwrap(), "before");
    assert_eq!(names(&folder), ["a.vcp", "b.vcp", "c.vcp", "e.vcp", "f.vcp", "g.vcp", "h.vcp"]);
}

#[test]
fn wrong_uses() {
    let (folder, _) = with_road("preview_wrong");
    expect_wrong(&folder, &["preview", "a.vcp", "--length", "80"], "--curve is missing");
    expect_wrong(&folder, &["preview", "a.vcp", "--curve", "3"], "--length is missing");
    for (curve, length, reason) in [
        ("-1", "80", "--curve: \"-1\" is negative"),
        ("3.0", "80", "--curve: \"3.0\" is not whole"),
        ("3", "-80", "--length: \"-80\" is negative"),
        ("3", "80.5", "--length: \"80.5\" is not whole"),
        ("3", "80 m", "--length: \"80 m\" is no number"),
    ] {
        expect_wrong(&folder, &["preview", "a.vcp", "--curve", curve, "--length", length], reason);
    }
    expect_wrong(&folder, &[&CALL[..], &["--passing", "585"]].concat(), "there is no option --passing");
    // What is wrong with the call is said before a file is read.
    let missing = ["preview", "none.vcp", "--curve", "3", "--length", "80", "-o", "-"];
    expect_wrong(&folder, &missing, "-o needs a file: standard output has the preview");
    assert_eq!(names(&folder), ["a.vcp"]);
}
