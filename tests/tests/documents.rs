//! What the documents show is what the lister prints, what they name is there, no theorem that they claim can be deleted
//! unseen, and the table of must-fail edits has them all.

use std::collections::{BTreeMap, BTreeSet};
use std::fs;
use std::path::PathBuf;

use sight_tests::lister;
use sight_tests::pages::{block, files, has_public, links, prose, quoted, root, table, text};
use sight_tests::reference::listing::listing;

/// The listings of the README, one of which has words behind two spaces, are what the lister prints for their roads.
#[test]
fn listings_of_the_readme() {
    let readme = text("README.md");
    for road in ["roads/three-crests.vcp", "roads/example.vcp"] {
        let shown: Vec<&str> = block(&readme, &format!("$ make list ROAD={road}"))
            .into_iter()
            .map(|line| line.split("  ").next().unwrap_or_default())
            .collect();
        let file = fs::read(root().join(road)).expect("the road ships with the repository");
        let printed = lister::output(&file);
        assert_eq!(shown, printed.lines().collect::<Vec<_>>(), "{road}");
        assert_eq!(printed, listing(&file), "second calculation, {road}");
    }
}

/// The text of the README is the shipped one.
#[test]
fn text_of_the_readme() {
    let readme = text("README.md");
    let shipped = text("roads/example.txt");
    let first = shipped.lines().next().expect("the text has lines");
    assert_eq!(block(&readme, first), shipped.lines().skip(1).collect::<Vec<_>>());
}

/// Each link of the README and of the documents names something that is there. One to the network is not looked at.
#[test]
fn links_name_what_is_there() {
    let mut documents = files(&root().join("docs"), "md");
    documents.push(root().join("README.md"));
    let mut found = 0;
    for path in documents {
        let document = prose(&fs::read_to_string(&path).expect("a document is text"));
        for (_, link) in links(&document).into_iter().filter(|(_, link)| !link.contains("://")) {
            let file = link.split('#').next().unwrap_or_default();
            assert!(path.with_file_name(file).exists(), "{} has a link to {link}", path.display());
            found += 1;
        }
    }
    assert!(found > 15, "{found} links");
}

/// The laws that a line of a document names between backquotes: those with their type, as in `accuracy : AccuracyRule`, and in a row of
/// a table that links to proofs those of the first column.
fn laws(line: &str) -> Vec<(&str, Option<&str>)> {
    let row = line.strip_prefix('|').filter(|_| links(line).iter().any(|(_, link)| link.contains("/proofs/")));
    let first = row.and_then(|row| row.split('|').next()).map_or(Vec::new(), quoted);
    let named = quoted(line)
        .into_iter()
        .map(|name| name.split_once(" : ").map_or((name, None), |(law, kind)| (law, Some(kind))));
    named.filter(|(law, kind)| kind.is_some() || first.contains(law)).collect()
}

/// The file of the repository that a document's link names.
fn linked(document: &str, link: &str) -> String {
    match document.starts_with("docs/") {
        true => link.strip_prefix("../").expect("a path of the repository").to_string(),
        false => link.to_string(),
    }
}

/// Each law that these documents name is a public term of the file that its row names.
#[test]
fn laws_are_those_of_the_files() {
    for (path, least) in [("README.md", 19), ("docs/ARCHITECTURE.md", 49)] {
        let document = prose(&text(path));
        let mut found = 0;
        for line in document.lines() {
            let proofs: Vec<String> = links(line)
                .into_iter()
                .filter(|(_, link)| link.contains("/proofs/"))
                .map(|(_, link)| linked(path, link))
                .collect();
            for (law, _) in laws(line) {
                assert!(line.starts_with('|') && proofs.len() == 1, "{path} names {law} and no file of it");
                assert!(has_public(&text(&proofs[0]), law), "{law} in {}", proofs[0]);
                found += 1;
            }
        }
        assert!(found >= least, "{path} names {found} laws");
    }
}

/// Each theorem that the README claims is a type in specs/ with one term, and an edit of that file that the check must refuse holds
/// the term in place: without the term it would pass.
#[test]
fn theorems_are_held_in_place() {
    let readme = prose(&text("README.md"));
    let ruled_out = wrong_answers(&text("docs/RULED-OUT.md"));
    let mut found = 0;
    for line in readme.lines() {
        for (law, kind) in laws(line).into_iter().filter_map(|(law, kind)| Some((law, kind?))) {
            let file = |part: &str| {
                let named = links(line).into_iter().map(|(_, link)| link).find(|link| link.contains(part));
                named.unwrap_or_else(|| panic!("{law} has no file in {part}"))
            };
            let (statement, proof) = (file("/specs/"), file("/proofs/"));
            assert!(has_public(&text(statement), kind), "{kind} in {statement}");
            assert!(text(proof).lines().any(|own| own == format!("pub {law} : {kind}")), "{law} : {kind} in {proof}");
            let (name, rest) =
                statement.strip_prefix("crates/").and_then(|path| path.split_once('/')).expect("a crate's file");
            let own = &ruled_out[&format!("{name} : {kind}")];
            let of_statement = own.iter().filter(|(edit, _)| {
                let edit = text(&format!("crates/{name}/must-fail/{edit}.edit"));
                edit.lines().any(|line| line == format!("file: {rest}"))
            });
            assert!(of_statement.count() >= 2, "{kind} has fewer than two edits");
            found += 1;
        }
    }
    assert!(found >= 19, "{found} theorems");
}

/// Each `crate::function` that these documents name is a public one of that crate.
#[test]
fn functions_are_those_of_the_crates() {
    let functions = public_functions();
    for (path, least) in [("README.md", 5), ("docs/ARCHITECTURE.md", 10)] {
        let document = prose(&text(path));
        let named: Vec<&str> = quoted(&document).into_iter().filter(|name| name.contains("::")).collect();
        for &name in &named {
            assert!(functions.contains(name), "{path} names {name}");
        }
        assert!(named.len() > least, "{path} names {named:?}");
    }
}

/// The table of contracts has every public function and method but those that it leaves to their operations: `crate::function`,
/// `crate::Type::method`, or `function` in a row of that crate.
#[test]
fn every_contract_is_in_the_table() {
    let document = text("docs/ARCHITECTURE.md");
    let mut named = BTreeSet::new();
    for row in table(&document, "## The contracts") {
        let mut name = "";
        for function in quoted(row[0]) {
            match function.split_once("::") {
                Some((own, _)) => {
                    name = own;
                    named.insert(function.to_string());
                }
                None => drop(named.insert(format!("{name}::{function}"))),
            }
        }
    }
    let functions = public_functions();
    assert!(named.is_subset(&functions), "{:?}", named.difference(&functions));
    let left: BTreeSet<&str> =
        functions.difference(&named).map(|function| function.split("::").next().unwrap_or_default()).collect();
    assert_eq!(
        left,
        BTreeSet::from([
            "conversion_exports",
            "curve_exports",
            "engine_exports",
            "listing_exports",
            "marks_exports",
            "passing_exports",
            "sight_exports"
        ])
    );
}

/// An edit as the table of wrong answers has it: its name, and what it changes.
type Edit = (String, String);

/// The table of wrong answers: each contract, such as `sight::profile`, with its edits. A row may have several contracts:
/// those of a crate of exports share its edits; an empty first column stands for the contracts above.
fn wrong_answers(table: &str) -> BTreeMap<String, Vec<Edit>> {
    let mut answers: BTreeMap<String, Vec<Edit>> = BTreeMap::new();
    let mut contracts = Vec::new();
    for line in table.lines().filter(|line| line.starts_with('|')) {
        let columns: Vec<&str> = line.split('|').collect();
        let named = quoted(columns[1]);
        if !named.is_empty() {
            contracts = named;
        }
        let edits = quoted(columns[2]).into_iter().map(|edit| (edit.to_string(), columns[3].trim().to_string()));
        for contract in &contracts {
            answers.entry(contract.to_string()).or_default().extend(edits.clone());
        }
    }
    answers
}

/// What an edit changes: code, a contract, or a definition (a statement is one).
fn changes(edit: &str) -> &'static str {
    let contract =
        edit.lines().any(|line| line.starts_with("old:") && (line.contains("ensures") || line.contains("requires")));
    let file = edit.lines().find_map(|line| line.strip_prefix("file: ")).expect("an edit names its file");
    match file.split('/').next() {
        Some("specs") => "definition",
        Some("src") if contract => "contract",
        Some("src") => "code",
        _ => panic!("an edit of {file}"),
    }
}

/// The crates, by their folders.
fn crates() -> Vec<(String, PathBuf)> {
    let folders = fs::read_dir(root().join("crates")).expect("the crates are there").flatten();
    folders.map(|folder| (folder.file_name().to_string_lossy().into_owned(), folder.path())).collect()
}

/// The name of the public function that begins on a line of Rattle.
fn public_function(line: &str) -> Option<&str> {
    let line = line.trim_start();
    let rest = line.strip_prefix("pub fn ").or(line.strip_prefix("pub extern \"C\" fn "))?;
    rest.split('(').next()
}

/// The type whose methods begin behind a line of Rattle, as in `impl Curve {`.
fn own_type(line: &str) -> Option<&str> {
    let own = line.strip_prefix("impl")?.strip_suffix(" {")?.rsplit(' ').next()?;
    own.split('<').next()
}

/// The public functions of the crates, such as `sight::profile`, and the methods, such as `road::Curve::begin`.
fn public_functions() -> BTreeSet<String> {
    let mut functions = BTreeSet::new();
    for (name, folder) in crates() {
        for source in files(&folder.join("src"), "rt") {
            let source = fs::read_to_string(source).expect("a source is text");
            let mut of = name.clone();
            for line in source.lines() {
                if let Some(own) = own_type(line) {
                    of = format!("{name}::{own}");
                } else if line == "}" {
                    of = name.clone();
                }
                functions.extend(public_function(line).map(|function| format!("{of}::{function}")));
            }
        }
    }
    functions
}

/// The table names each must-fail edit of each crate, and no other, and says what it changes.
#[test]
fn every_edit_is_in_the_table() {
    let mut there = BTreeMap::new();
    for (name, folder) in crates() {
        let Ok(edits) = fs::read_dir(folder.join("must-fail")) else { continue };
        for edit in edits.flatten() {
            let label = edit.file_name().to_string_lossy().into_owned();
            let kind = changes(&fs::read_to_string(edit.path()).expect("an edit is text"));
            there.insert(format!("{name}/{}", label.strip_suffix(".edit").expect("an edit")), kind.to_string());
        }
    }
    let mut named = BTreeMap::new();
    for (contract, edits) in wrong_answers(&text("docs/RULED-OUT.md")) {
        let name = contract.split([':', ' ']).next().unwrap_or_default();
        named.extend(edits.into_iter().map(|(edit, kind)| (format!("{name}/{edit}"), kind)));
    }
    assert_eq!(named, there);
}

/// Each public function has two wrong answers or more in the table, by edits of code.
#[test]
fn every_contract_rules_out_two_answers() {
    let table = wrong_answers(&text("docs/RULED-OUT.md"));
    let functions = public_functions();
    for function in &functions {
        let edits = table.get(function).map_or(0, |edits| edits.iter().filter(|(_, kind)| kind == "code").count());
        assert!(edits >= 2, "{function} has {edits}");
    }
    assert!(functions.len() > 20, "{} public functions", functions.len());
}
