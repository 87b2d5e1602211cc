//! The documents and the sources of the repository, as text.

use std::fs;
use std::path::{Path, PathBuf};

/// The repository.
pub fn root() -> PathBuf {
    Path::new(env!("CARGO_MANIFEST_DIR")).parent().expect("the package stands in the repository").to_path_buf()
}

/// A file of the repository.
pub fn text(path: &str) -> String {
    let path = root().join(path);
    fs::read_to_string(&path).unwrap_or_else(|error| panic!("{}: {error}", path.display()))
}

/// The files of a folder whose names end so.
pub fn files(folder: &Path, ending: &str) -> Vec<PathBuf> {
    let entries = fs::read_dir(folder).unwrap_or_else(|error| panic!("{}: {error}", folder.display())).flatten();
    entries.map(|entry| entry.path()).filter(|path| path.extension().is_some_and(|own| own == ending)).collect()
}

/// The block of a document that begins with a line, without that line.
pub fn block<'a>(document: &'a str, first: &str) -> Vec<&'a str> {
    let mut lines = document.lines().skip_while(|&line| line != first);
    assert!(lines.next().is_some(), "no line {first:?}");
    lines.take_while(|&line| line != "```").collect()
}

/// A document without its blocks of code.
pub fn prose(document: &str) -> String {
    let parts: Vec<&str> = document.split("```").collect();
    assert!(parts.len() % 2 == 1, "each block of code ends");
    parts.into_iter().step_by(2).collect()
}

/// What stands between backquotes.
pub fn quoted(text: &str) -> Vec<&str> {
    text.split('`').skip(1).step_by(2).collect()
}

/// The rows of the table below a heading, without its first two, each as its columns.
pub fn table<'a>(document: &'a str, heading: &str) -> Vec<Vec<&'a str>> {
    let lines = document.lines().skip_while(|&line| line != heading).skip(1).take_while(|line| !line.starts_with('#'));
    let rows = lines.filter(|line| line.starts_with('|')).skip(2);
    let rows: Vec<Vec<&str>> = rows.map(|row| row.trim_matches('|').split('|').map(str::trim).collect()).collect();
    assert!(!rows.is_empty(), "no table below {heading:?}");
    rows
}

/// The links of a text, what each shows and what it names: `[shown](path)`, or `[shown][label]` with `[label]: path` on a line of
/// its own.
pub fn links(text: &str) -> Vec<(&str, &str)> {
    let labels = |label: &str| {
        let line = text.lines().find_map(|line| line.strip_prefix('[')?.strip_prefix(label)?.strip_prefix("]: "));
        line.unwrap_or_else(|| panic!("no line for the label {label}"))
    };
    let mut links = Vec::new();
    for (at, _) in text.match_indices("](").chain(text.match_indices("][")) {
        let shown = text[..at].rsplit('[').next().unwrap_or_default();
        let named = &text[at + 2..];
        links.push(match text[at..].starts_with("](") {
            true => (shown, named.split(')').next().unwrap_or_default()),
            false => (shown, labels(named.split(']').next().unwrap_or_default())),
        });
    }
    links
}

/// Whether a source of antt has a public item of that name: a definition, a law or a record.
pub fn has_public(source: &str, name: &str) -> bool {
    source.lines().filter(|line| !line.trim_start().starts_with("--")).any(|line| {
        let words: Vec<&str> = line.split_whitespace().collect();
        let behind = words.iter().position(|&word| word == "pub").map_or(&[][..], |at| &words[at + 1..]);
        match behind {
            ["record", own, ..] => *own == name,
            [own, ":", ..] => *own == name,
            _ => false,
        }
    })
}
