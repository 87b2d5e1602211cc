//! `vcp heights` and `vcp sight`, by either engine and by both, in either direction, against the second calculation.

mod common;

use std::fs::{self, File};
use std::io::Write;
use std::path::Path;
use std::time::Instant;

use common::{expect, expect_error, expect_wrong, folder, root, run, run_with, Ended};
use sight_tests::pages::{block, text};
use sight_tests::random::Random;
use sight_tests::reference::back;
use sight_tests::reference::file::bytes;
use sight_tests::reference::road::{stored_height, Road};
use sight_tests::reference::sight::{available_sight, whole_heights, Look};
use sight_tests::roads;

/// The stored heights of a road.
fn heights(road: &Road) -> Vec<i32> {
    (0..=road.length).map(|station| stored_height(road, station)).collect()
}

/// A height in metres, written another way than the command does: from the text of its h-units.
fn metres(height: i32) -> String {
    let digits = format!("{:05}", height.unsigned_abs());
    let (whole, decimals) = digits.split_at(digits.len() - 4);
    format!("{}{whole}.{decimals}", if height < 0 { "-" } else { "" })
}

/// A table's lines, from station `from` to `to` in steps.
fn table(header: &str, from: usize, to: usize, every: usize, value: impl Fn(usize) -> String) -> String {
    let rows = (from..=to).filter(|station| (station - from) % every == 0);
    header.to_string() + "\n" + &rows.map(|station| format!("{station},{}\n", value(station))).collect::<String>()
}

/// The line that says of a file that both engines agree.
fn agreement(name: &str, from: usize, to: usize) -> String {
    match to - from {
        0 => format!("{name}: both engines agree at station {from}\n"),
        others => format!("{name}: both engines agree at all {} stations from {from} to {to}\n", others + 1),
    }
}

/// `vcp sight` prints these sights from a station on, for the file on its standard input and with these options: by either
/// engine, and by both side by side.
fn expect_sights(folder: &Path, options: &[&str], file: &[u8], from: usize, sights: &[usize]) {
    let to = from + sights.len() - 1;
    let sight = |station: usize| sights[station - from].to_string();
    let one = table("station_m,sight_m", from, to, 1, sight);
    let two =
        table("station_m,sight_m,slow_sight_m", from, to, 1, |station| [sight(station), sight(station)].join(","));
    let agreement = agreement("-", from, to);
    for (engine, output, errors) in [(None, &one, ""), (Some("--slow"), &one, ""), (Some("--both"), &two, &agreement)] {
        let arguments = [&["sight"], engine.as_slice(), options, &["-"]].concat();
        let ended = run_with(folder, &arguments, file).0;
        assert!(ended.output == *output, "{arguments:?}, {file:02X?}: {}", ended.output);
        assert_eq!((ended.errors.as_str(), ended.status), (errors, 0), "{arguments:?}");
    }
}

/// The second calculation's sights from these stations.
fn second_sights(heights: &[i64], look: Look, from: usize, to: usize) -> Vec<usize> {
    (from..=to).map(|station| available_sight(heights, look, station)).collect()
}

/// A stretch of a road, in steps.
fn any_stretch(random: &mut Random, last: usize) -> (usize, usize, usize) {
    let from = random.within(0..=last as u32) as usize;
    let to = random.within(from as u32..=last as u32) as usize;
    (from, to, random.of_any_size(20) as usize)
}

#[test]
fn heights_of_random_roads() {
    let folder = folder("heights_random");
    let mut random = Random::new(83);
    let mut negative = 0;
    for round in 0..300 {
        let room = random.within(2..=200);
        let road = if round % 2 == 0 { roads::run_of_crests(&mut random, room) } else { roads::any_road(&mut random) };
        let heights = heights(&road);
        negative += heights.iter().filter(|&&height| height < 0).count();
        let last = heights.len() - 1;
        let file = bytes(&road);
        let all = run_with(&folder, &["heights", "-"], &file).0;
        assert_eq!(all.output, table("station_m,height_m", 0, last, 1, |station| metres(heights[station])), "{road:?}");
        assert_eq!((all.errors.as_str(), all.status), ("", 0));
        let (from, to, every) = any_stretch(&mut random, last);
        let [from_word, to_word, every_word] = [from, to, every].map(|number| number.to_string());
        let arguments = ["heights", "-", "--from", &from_word, "--to", &to_word, "--every", &every_word];
        let part = run_with(&folder, &arguments, &file).0;
        assert_eq!(part.output, table("station_m,height_m", from, to, every, |station| metres(heights[station])));
    }
    assert!(negative > 1_000, "{negative} heights below zero");
}

#[test]
fn sights_of_random_roads() {
    let folder = folder("sights_random");
    let mut random = Random::new(84);
    for round in 0..150 {
        let room = random.within(2..=120);
        let road =
            if round % 2 == 0 { roads::run_of_crests(&mut random, room) } else { roads::breaks(&mut random, room) };
        let heights = whole_heights(&heights(&road));
        let last = heights.len() - 1;
        let look = Look {
            eye: random.of_any_size(50_000),
            object: random.of_any_size(50_000),
            farthest: random.of_any_size(8_000),
        };
        let (from, to, _) = any_stretch(&mut random, last);
        let [eye, object] = [look.eye, look.object].map(|height| metres(height as i32));
        let [from_word, to_word, farthest] = [from, to, look.farthest as usize].map(|number| number.to_string());
        let options = [
            ["--eye", &eye],
            ["--object", &object],
            ["--farthest", &farthest],
            ["--from", &from_word],
            ["--to", &to_word],
        ];
        let file = bytes(&road);
        expect_sights(&folder, &options.concat(), &file, from, &second_sights(&heights, look, from, to));
        // Without options: eye 1.08 m, object 0.60 m, as far as the road goes.
        let look = Look { eye: 10_800, object: 6_000, farthest: 8_000 };
        expect_sights(&folder, &[], &file, 0, &second_sights(&heights, look, 0, last));
    }
}

/// The lane coming back: from each station so many metres towards station 0.
#[test]
fn sights_of_the_lane_coming_back() {
    let folder = folder("sights_back");
    let mut random = Random::new(194);
    let mut not_as_rising = 0;
    for round in 0..150 {
        let room = random.within(2..=120);
        let road = match round % 15 {
            0 => roads::far_run_of_crests(&mut random, room),
            1..=5 => roads::breaks(&mut random, room),
            _ => roads::run_of_crests(&mut random, room),
        };
        let heights = whole_heights(&heights(&road));
        let look = Look {
            eye: random.of_any_size(50_000),
            object: random.of_any_size(50_000),
            farthest: random.of_any_size(200),
        };
        let last = heights.len() - 1;
        let from = random.within(0..=last as u32) as usize;
        let to = last.min(from + random.within(0..=200) as usize);
        let [eye, object] = [look.eye, look.object].map(|height| metres(height as i32));
        let [from_word, to_word, farthest] = [from, to, look.farthest as usize].map(|number| number.to_string());
        let options = [
            ["--eye", &eye],
            ["--object", &object],
            ["--farthest", &farthest],
            ["--from", &from_word],
            ["--to", &to_word],
        ];
        let options = [&["--back"], options.as_flattened()].concat();
        let sights: Vec<usize> = (from..=to).map(|station| back::available_sight(&heights, look, station)).collect();
        expect_sights(&folder, &options, &bytes(&road), from, &sights);
        not_as_rising += usize::from(sights != second_sights(&heights, look, from, to));
    }
    assert!(not_as_rising > 100, "{not_as_rising} of 150 tables are not those of the other direction");
}

/// Roads over 8,000 m: all heights, and the sights of any stretch.
#[test]
fn long_roads() {
    let folder = folder("tables_long");
    let mut random = Random::new(123);
    for _ in 0..12 {
        let road = roads::any_long_road(&mut random);
        let (file, heights) = (bytes(&road), heights(&road));
        let last = heights.len() - 1;
        let ended = run_with(&folder, &["heights", "-"], &file).0;
        let expected = table("station_m,height_m", 0, last, 1, |station| metres(heights[station]));
        assert!(ended.output == expected, "{road:?}");
        assert_eq!((ended.errors.as_str(), ended.status), ("", 0));
        let (from, to, _) = any_stretch(&mut random, last);
        let [from_word, to_word] = [from, to].map(|number| number.to_string());
        let options = ["--farthest", "60", "--from", &from_word, "--to", &to_word];
        let (whole, look) = (whole_heights(&heights), Look { eye: 10_800, object: 6_000, farthest: 60 });
        expect_sights(&folder, &options, &file, from, &second_sights(&whole, look, from, to));
    }
}

/// Runs of short crests far out: what they hide is hidden from either engine. Cut to two bytes a station would be another one, on a
/// straight.
#[test]
fn sights_far_out() {
    let folder = folder("sights_far_out");
    let mut random = Random::new(135);
    let look = Look { eye: 500, object: 500, farthest: 60 };
    let (mut hidden, mut far) = (0, 0);
    for _ in 0..8 {
        let road = roads::steeper(roads::far_run_of_crests(&mut random, 80));
        let heights = whole_heights(&heights(&road));
        let last = heights.len() - 1;
        let curves = road.curves.first().zip(road.curves.last()).expect("the run has curves");
        let (from, to) = (curves.0.begin() as usize - 40, last.min(curves.1.end() as usize + 20));
        let [from_word, to_word] = [from, to].map(|number| number.to_string());
        let options = ["--eye=0.05", "--object=0.05", "--farthest=60", "--from", &from_word, "--to", &to_word];
        let sights = second_sights(&heights, look, from, to);
        expect_sights(&folder, &options, &bytes(&road), from, &sights);
        for (station, sight) in (from..).zip(sights) {
            let less = sight < (last - station).min(60);
            hidden += usize::from(less);
            far += usize::from(less && station > 65_535);
        }
    }
    assert!(hidden > 200 && far > 100, "{hidden} stations with a hidden one ahead, {far} of them behind 65,535");
}

/// As far as can be asked for, where nothing is said: a station of a level road sees so far, or to the road's end. The slow engine
/// is asked for these stations alone, for the whole of these roads would take it minutes.
#[test]
fn farthest_of_all() {
    let folder = folder("sights_farthest");
    for (version, length, from, sights) in [
        (1, 8_000, 0, &[8_000, 7_999][..]),
        (2, 8_000, 0, &[8_000, 7_999]),
        (2, 12_000, 3_999, &[8_000, 8_000, 7_999]),
        (2, 20_000, 12_000, &[8_000]),
    ] {
        let road = Road { version, speed: 20, purpose: 1, length, start_height: 0, first_grade: 0, curves: vec![] };
        let [from_word, to_word] = [from, from + sights.len() - 1].map(|station| station.to_string());
        expect_sights(&folder, &["--from", &from_word, "--to", &to_word], &bytes(&road), from, sights);
    }
}

/// Their answers do not tell one engine from the other, but their time does: it is the quick one that is asked where nothing is
/// said, and the slow one behind --slow and, beside the other, behind --both.
#[test]
fn slow_engine_takes_its_time() {
    let folder = folder("sights_time");
    let (version, speed, purpose) = (1, 20, 1);
    let road = Road { version, speed, purpose, length: 1_200, start_height: 0, first_grade: 0, curves: vec![] };
    let file = bytes(&road);
    let time = |engine: &[&str]| {
        let start = Instant::now();
        assert_eq!(run_with(&folder, &[&["sight", "-"], engine].concat(), &file).0.status, 0, "{engine:?}");
        start.elapsed()
    };
    let quick = (0..10).map(|_| time(&[])).min().expect("there are ten times");
    for engine in ["--slow", "--both"] {
        let slow = time(&[engine]);
        assert!(slow > 5 * quick, "{engine} takes {slow:?}, the quick engine {quick:?}");
    }
}

/// The call of both engines that the README shows.
#[test]
fn call_of_the_readme() {
    let readme = text("README.md");
    let call = readme.lines().find(|line| line.starts_with("$ vcp sight ")).expect("the README shows both engines");
    let shown = block(&readme, call);
    let (agreement, table) = shown.split_last().expect("the README shows what is said");
    let ended = run(&root(), &call.split(' ').skip(2).collect::<Vec<_>>());
    let [output, errors] = [table, &[*agreement]].map(|lines| lines.join("\n") + "\n");
    assert_eq!(ended, Ended { output, errors, status: 0 });
}

/// Into a file, whole; and what stood there before gives way.
#[test]
fn into_a_file() {
    let folder = folder("tables_files");
    fs::copy(root().join("roads/level.vcp"), folder.join("a.vcp")).expect("the road ships with the repository");
    fs::write(folder.join("a.csv"), "a longer text than the table that follows here, and of another kind").unwrap();
    expect(&folder, &["heights", "a.vcp", "-o", "a.csv", "--to=1"], "");
    assert_eq!(fs::read_to_string(folder.join("a.csv")).unwrap(), "station_m,height_m\n0,100.0000\n1,100.0000\n");
    expect(&folder, &["sight", "-ob.csv", "a.vcp", "--from=999"], "");
    assert_eq!(fs::read_to_string(folder.join("b.csv")).unwrap(), "station_m,sight_m\n999,1\n1000,0\n");
    // That both engines agree is said all the same, of a file by any name on one line.
    fs::copy(folder.join("a.vcp"), folder.join("a\nb.vcp")).unwrap();
    for (file, name) in [("a.vcp", "a.vcp"), ("a\nb.vcp", "a\\nb.vcp")] {
        expect_error(&folder, &["sight", file, "--both", "--from=999", "-oc.csv"], 0, &agreement(name, 999, 1_000));
        let table = "station_m,sight_m,slow_sight_m\n999,1,1\n1000,0,0\n";
        assert_eq!(fs::read_to_string(folder.join("c.csv")).unwrap(), table);
    }
    fs::remove_file(folder.join("a\nb.vcp")).unwrap();
    expect(&folder, &["heights", "a.vcp", "--from", "1000", "-o", "-"], "station_m,height_m\n1000,100.0000\n");
    // What standard output goes to is written on, and not replaced.
    let mut both = File::create(folder.join("both")).unwrap();
    both.write_all(b"before\n").unwrap();
    let mut running = common::command();
    running.args(["heights", "a.vcp", "--from", "1000", "-o", "/dev/stdout"]).current_dir(&folder);
    assert!(running.stdout(both.try_clone().unwrap()).status().expect("the command ends").success());
    both.write_all(b"after\n").unwrap();
    let text = fs::read_to_string(folder.join("both")).unwrap();
    assert_eq!(text, "before\nstation_m,height_m\n1000,100.0000\nafter\n");
    fs::remove_file(folder.join("both")).unwrap();
    assert_eq!(common::names(&folder), ["a.csv", "a.vcp", "b.csv", "c.csv"]);
}

/// Stations that the road does not have, and options that cannot be read.
#[test]
fn wrong_options() {
    let folder = folder("tables_wrong");
    fs::copy(root().join("roads/level.vcp"), folder.join("a.vcp")).expect("the road ships with the repository");
    for name in ["heights", "sight"] {
        expect_wrong(&folder, &[name, "a.vcp", "--to", "1001"], "--to: the last station is 1000");
        expect_wrong(&folder, &[name, "a.vcp", "--from", "1001"], "--from: the last station is 1000");
        expect_wrong(&folder, &[name, "a.vcp", "--to", "4294967296"], "--to: the last station is 1000");
        expect_wrong(&folder, &[name, "a.vcp", "--from", "4294967296"], "--from: the last station is 1000");
        expect_wrong(&folder, &[name, "a.vcp", "--from", "9", "--to", "8"], "--from is beyond --to");
        expect_wrong(&folder, &[name, "a.vcp", "--from", "1.0"], "--from: \"1.0\" is not whole");
        expect_wrong(&folder, &[name, "a.vcp", "--from", "-1"], "--from: \"-1\" is negative");
        expect_wrong(&folder, &[name, "a.vcp", "--from", "1", "--from", "2"], "--from stands twice");
        expect_wrong(&folder, &[name, "a.vcp", "--from"], "--from needs M");
        expect_wrong(&folder, &[name, "a.vcp", "--from", "--to", "5"], "--from needs M");
        // What is used wrongly is said before the file is read.
        expect_wrong(&folder, &[name, "none.vcp", "--from", "9", "--to", "8"], "--from is beyond --to");
    }
    expect_wrong(&folder, &["heights", "none.vcp", "--every", "0"], "--every 0 is no step");
    expect_wrong(&folder, &["heights", "a.vcp", "--eye", "1"], "there is no option --eye");
    expect_wrong(&folder, &["sight", "a.vcp", "--every", "1"], "there is no option --every");
    expect_wrong(&folder, &["sight", "a.vcp", "--eye", "1.00001"], "--eye: \"1.00001\" has more than 4 decimals");
    expect_wrong(&folder, &["sight", "a.vcp", "--eye", ""], "--eye: the number is missing");
    for engine in ["--slow", "--both"] {
        expect_wrong(&folder, &["heights", "a.vcp", engine], &format!("there is no option {engine}"));
        expect_wrong(&folder, &["sight", "a.vcp", engine, engine], &format!("{engine} stands twice"));
        expect_wrong(&folder, &["sight", "a.vcp", &format!("{engine}=1")], &format!("{engine} takes no value"));
        expect_wrong(&folder, &["sight", "a.vcp", engine, "--to", "1001"], "--to: the last station is 1000");
    }
    expect_wrong(&folder, &["sight", "a.vcp", "--back=1"], "--back takes no value");
    expect_wrong(&folder, &["heights", "a.vcp", "--back"], "there is no option --back");
    expect_wrong(&folder, &["sight", "a.vcp", "--back", "--from", "9", "--to", "8"], "--from is beyond --to");
    for engines in [["--slow", "--both"], ["--both", "--slow"]] {
        expect_wrong(&folder, &[&["sight", "none.vcp"], &engines[..]].concat(), "--slow does not go with --both");
    }
}

/// The proved functions judge heights and distances.
#[test]
fn refused_options() {
    let folder = folder("tables_refused");
    fs::copy(root().join("roads/level.vcp"), folder.join("a.vcp")).expect("the road ships with the repository");
    let height = "a.vcp: refused 17: the height of eye or object is not 1 to 50,000 h-units (0.0001 to 5 m)\n";
    let farthest = "a.vcp: refused 21: the farthest or the passing distance is not 1 to 8,000 m\n";
    for (name, value, line) in [
        ("--eye", "0", height),
        ("--eye", "5.0001", height),
        ("--object", "0.0000", height),
        ("--object", "99999999999999999999", height),
        ("--farthest", "0", farthest),
        ("--farthest", "8001", farthest),
        ("--farthest", "4294967297", farthest),
    ] {
        for engine in [&[][..], &["--slow"], &["--both"], &["--back"], &["--back", "--slow"], &["--both", "--back"]] {
            expect_error(&folder, &[&["sight", "a.vcp", name, value], engine].concat(), 1, line);
        }
    }
    for (name, value) in [("--eye", "0.0001"), ("--eye", "5"), ("--object", "5.0000"), ("--farthest", "8000")] {
        assert_eq!(common::run(&folder, &["sight", "a.vcp", name, value]).status, 0, "{name} {value}");
    }
}
