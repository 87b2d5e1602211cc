//! The functions as Rust declares them are those that the proved crates export: nothing else compares the two, and the
//! linker goes by the name alone.

const VAN: [&str; 2] = [include_str!("../../crates/van/src/lib.rt"), include_str!("../../rust/van/src/lib.rs")];
const EXPORTS: [&str; 2] = [
    concat!(
        include_str!("../../crates/curve_exports/src/lib.rt"),
        include_str!("../../crates/sight_exports/src/lib.rt"),
        include_str!("../../crates/engine_exports/src/lib.rt"),
        include_str!("../../crates/marks_exports/src/lib.rt"),
        include_str!("../../crates/passing_exports/src/lib.rt"),
        include_str!("../../crates/file_exports/src/lib.rt"),
        include_str!("../../crates/road_exports/src/lib.rt"),
        include_str!("../../crates/preview_exports/src/lib.rt"),
        include_str!("../../crates/listing_exports/src/lib.rt"),
        include_str!("../../crates/conversion_exports/src/lib.rt"),
        include_str!("../../crates/mirror_exports/src/lib.rt"),
    ),
    include_str!("../../rust/exports/src/lib.rs"),
];

/// A function as it is called: by its name, with what is handed over in order, and with the type of its answer.
#[derive(Debug, PartialEq)]
struct Function {
    name: String,
    arguments: Vec<Argument>,
    answer: String,
}

/// What is handed over, by its type; a number, or a `bool`, by its name too.
#[derive(Debug, PartialEq)]
enum Argument {
    Number(String, String),
    Pointer(String),
    Length,
}

/// A source without its comments.
fn code(source: &str) -> String {
    source.lines().map(|line| line.split("//").next().unwrap_or_default()).collect::<Vec<_>>().join("\n")
}

/// The parameters' names and types, and the answer's type, of `NAME(PARAMETERS) -> TYPE` and whatever follows.
fn signature(text: &str) -> (&str, Vec<[&str; 2]>, &str) {
    let (name, rest) = text.split_once('(').expect("a function has parameters");
    let (parameters, rest) = rest.split_once(')').expect("the parameters end");
    let parameters = parameters.split(',').map(str::trim).filter(|parameter| !parameter.is_empty());
    let parameters = parameters.map(|parameter| {
        let (name, kind) = parameter.split_once(':').expect("a parameter has a type");
        [name.trim(), kind.trim()]
    });
    let answer = rest.trim_start().strip_prefix("->").map_or("", str::trim_start);
    let end = answer.find(|letter: char| !letter.is_alphanumeric()).unwrap_or(answer.len());
    (name.trim(), parameters.collect(), &answer[..end])
}

fn is_number(kind: &str) -> bool {
    ["u8", "u16", "u32", "u64", "usize", "i8", "i16", "i32", "i64", "isize"].contains(&kind)
}

/// What a Rattle parameter hands over: a number or a `bool` as it is, a slice of numbers as its pointer and then its length.
fn handed_over([name, kind]: [&str; 2]) -> Vec<Argument> {
    let slice = |start: &str| kind.strip_prefix(start)?.strip_suffix(']').filter(|element| is_number(element));
    match (slice("&["), slice("&mut [")) {
        (Some(element), _) => vec![Argument::Pointer(format!("*const {element}")), Argument::Length],
        (_, Some(element)) => vec![Argument::Pointer(format!("*mut {element}")), Argument::Length],
        _ if is_number(kind) || kind == "bool" => vec![Argument::Number(name.to_string(), kind.to_string())],
        _ => panic!("{name}: {kind} is neither a number nor a `bool` nor a slice of numbers"),
    }
}

/// The functions that a Rattle source exports.
fn exported(source: &str) -> Vec<Function> {
    let code = code(source);
    let exports = code.split("#[unsafe(no_mangle)]").skip(1).map(|after| {
        let lines = after.trim_start().split_inclusive('\n').skip_while(|line| line.starts_with("#[tactic("));
        let text: String = lines.collect();
        let text = text.strip_prefix("pub extern \"C\" fn ").expect("an exported function is `extern`");
        let (name, parameters, answer) = signature(text);
        let arguments = parameters.into_iter().flat_map(handed_over).collect();
        Function { name: name.to_string(), arguments, answer: answer.to_string() }
    });
    exports.collect()
}

/// The functions that a Rust source declares. A `usize` behind a pointer is its length.
fn declared(source: &str) -> Vec<Function> {
    let code = code(source);
    let blocks = code.split("extern \"C\" {").skip(1).map(|after| after.split('}').next().unwrap_or_default());
    let declarations = blocks.flat_map(|block| block.split(';')).filter_map(|text| text.trim().strip_prefix("fn "));
    let functions = declarations.map(|text| {
        let (name, parameters, answer) = signature(text);
        let mut arguments = Vec::new();
        for [name, kind] in parameters {
            arguments.push(match arguments.last() {
                _ if kind.starts_with('*') => Argument::Pointer(kind.to_string()),
                Some(Argument::Pointer(_)) if kind == "usize" => Argument::Length,
                _ => Argument::Number(name.to_string(), kind.to_string()),
            });
        }
        Function { name: name.to_string(), arguments, answer: answer.to_string() }
    });
    functions.collect()
}

/// The names of the functions that are missing on either side, or stand twice, or differ.
fn differing([rattle, rust]: [&str; 2]) -> Vec<String> {
    let (exported, declared) = (exported(rattle), declared(rust));
    let named = |functions: &[Function], name: &str| functions.iter().filter(|function| function.name == name).count();
    let mut names: Vec<String> = exported.iter().chain(&declared).map(|function| function.name.clone()).collect();
    names.sort_unstable();
    names.dedup();
    let same = |name: &String| {
        let once = named(&exported, name) == 1 && named(&declared, name) == 1;
        once && exported.iter().any(|function| function.name == *name && declared.contains(function))
    };
    names.retain(|name| !same(name));
    names
}

#[test]
fn declarations_are_those_of_the_proved_crates() {
    for (pair, many) in [(VAN, 3), (EXPORTS, 22)] {
        assert_eq!(exported(pair[0]).len(), many);
        assert_eq!(differing(pair), [""; 0], "{:#?}\n{:#?}", exported(pair[0]), declared(pair[1]));
    }
}

const RATTLE: &str = "\
// pub extern \"C\" fn in_a_comment(a: u32) -> u32
#[unsafe(no_mangle)]
#[tactic(auto, using(crate::proofs::Laws::law))]
pub extern \"C\" fn sight(heights: &[i32], back: bool, eye: u32, object: u32, sights: &mut [u16]) -> i64
    ensures { ... }
{
    helper(heights)
}

fn helper(heights: &[i32]) -> u32 {
    0
}

#[unsafe(no_mangle)]
pub extern \"C\" fn length(
    drop: u32,
    sight: u8,
) -> i32
{
    0
}
";

const RUST: &str = "\
extern \"C\" {
    // fn in_a_comment(a: u32) -> u32;
    fn sight(
        list: *const i32,
        list_length: usize,
        back: bool,
        eye: u32,
        object: u32,
        sights: *mut u16,
        sights_length: usize,
    ) -> i64;
    fn length(drop: u32, sight: u8) -> i32;
}

fn other(a: u32) -> u32 {
    a
}
";

/// The sample with one piece of text changed.
fn changed(source: &str, from: &str, to: &str) -> String {
    assert_eq!(source.matches(from).count(), 1, "{from}");
    source.replace(from, to)
}

/// The comparing itself: it accepts a declaration as it should be, and each wrong one is found.
#[test]
fn wrong_declarations_are_found() {
    assert_eq!(differing([RATTLE, RUST]), [""; 0]);
    let sight = [
        ("list: *const i32", "list: *mut i32"),
        ("list: *const i32", "list: *const u32"),
        ("list: *const i32", "list: i64"),
        ("sights: *mut u16", "sights: *const u16"),
        ("sights: *mut u16", "sights: *mut u8"),
        ("list_length: usize", "list_length: u32"),
        ("        list_length: usize,\n", ""),
        ("        sights_length: usize,\n", ""),
        ("eye: u32,\n        object: u32", "object: u32,\n        eye: u32"),
        ("eye: u32", "eyes: u32"),
        ("back: bool", "back: u8"),
        ("back: bool", "forth: bool"),
        ("        back: bool,\n", ""),
        ("back: bool,\n        eye: u32", "eye: u32,\n        back: bool"),
        ("eye: u32", "eye: i32"),
        ("object: u32,\n", "object: u32,\n        farthest: u32,\n"),
        ("        object: u32,\n", ""),
        (") -> i64;", ") -> i32;"),
        (") -> i64;", ");"),
    ];
    for (from, to) in sight {
        assert_eq!(differing([RATTLE, &changed(RUST, from, to)]), ["sight"], "{from} is {to}");
    }
    let twice = "    fn length(drop: u32, sight: u8) -> i32;\n    fn length(drop: u32, sight: u8) -> u32;\n";
    for declaration in ["", twice] {
        let rust = changed(RUST, "    fn length(drop: u32, sight: u8) -> i32;\n", declaration);
        assert_eq!(differing([RATTLE, &rust]), ["length"], "{declaration}");
    }
    assert_eq!(differing([RATTLE, &changed(RUST, "fn length", "fn lengths")]), ["length", "lengths"]);
    assert_eq!(differing([RATTLE, ""]), ["length", "sight"]);
    assert_eq!(differing(["", RUST]), ["length", "sight"]);
}

/// A change in Rattle is found too.
#[test]
fn changed_exports_are_found() {
    for (from, to) in [
        ("sights: &mut [u16]", "sights: &[u16]"),
        ("back: bool", "back: u8"),
        ("eye: u32", "eye: u64"),
        ("-> i64", "-> i32"),
    ] {
        assert_eq!(differing([&changed(RATTLE, from, to), RUST]), ["sight"], "{from} is {to}");
    }
    for (from, to) in [("    drop: u32,\n", ""), ("drop: u32", "fall: u32"), ("sight: u8", "sight: u16")] {
        assert_eq!(differing([&changed(RATTLE, from, to), RUST]), ["length"], "{from} is {to}");
    }
}

#[test]
#[should_panic(expected = "neither a number nor a `bool` nor a slice of numbers")]
fn a_parameter_of_another_kind_is_found() {
    differing([&changed(RATTLE, "sight: u8", "sight: Crest"), RUST]);
}

#[test]
#[should_panic(expected = "an exported function is `extern`")]
fn an_export_of_another_form_is_found() {
    differing([&changed(RATTLE, "pub extern \"C\" fn length", "pub fn length"), RUST]);
}
