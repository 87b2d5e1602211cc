//! A picture taken apart.

use std::collections::HashMap;

/// An element: its name, its attributes, the elements that hold it, and the text behind its start.
pub struct Element {
    pub name: String,
    attributes: HashMap<String, String>,
    within: Vec<usize>,
    pub text: String,
}

/// A path's class, its commands and its points on the sheet.
#[derive(Debug, PartialEq)]
pub struct Outline {
    pub class: String,
    commands: String,
    pub points: Vec<(i64, i64)>,
}

impl Outline {
    pub fn new(class: &str, commands: &str, points: &[(i64, i64)]) -> Outline {
        Outline { class: class.to_string(), commands: commands.to_string(), points: points.to_vec() }
    }
}

impl Element {
    pub fn get(&self, attribute: &str) -> &str {
        self.attributes.get(attribute).map_or("", String::as_str)
    }

    pub fn number(&self, attribute: &str) -> i64 {
        number(self.get(attribute))
    }

    /// The points of a line or an area.
    pub fn points(&self) -> Vec<(i64, i64)> {
        let pairs = self.get("points").split_whitespace().map(|pair| {
            let (x, y) = pair.split_once(',').expect("a point has two numbers");
            (number(x), number(y))
        });
        pairs.collect()
    }

    /// The commands of a path, and their numbers.
    pub fn path(&self) -> (String, Vec<i64>) {
        let path = self.get("d");
        let commands = path.chars().filter(char::is_ascii_alphabetic).collect();
        // A minus may stand close behind the number before it.
        let apart = path.replace('-', " -").replace(|letter: char| letter.is_ascii_alphabetic(), " ");
        (commands, apart.split_whitespace().map(number).collect())
    }

    /// A path that may be moved as a whole, and whose points have two numbers each but for one straight down.
    fn outline(&self) -> Outline {
        let (commands, mut numbers) = self.path();
        if commands == "MV" {
            numbers.insert(2, numbers[0]);
        }
        let (right, down) = self.moved();
        let points = numbers.chunks_exact(2).map(|point| (point[0] + right, point[1] + down)).collect();
        Outline { class: self.get("class").to_string(), commands, points }
    }

    fn moved(&self) -> (i64, i64) {
        let Some(rest) = self.get("transform").strip_prefix("translate(") else { return (0, 0) };
        let (x, y) = rest.strip_suffix(')').and_then(|pair| pair.split_once(' ')).expect("a move has two numbers");
        (number(x), number(y))
    }

    /// A label's x and text.
    pub fn label(&self) -> (i64, String) {
        (self.number("x"), self.text.clone())
    }
}

fn number(text: &str) -> i64 {
    text.parse().unwrap_or_else(|_| panic!("{text:?} is a number"))
}

/// The elements of a picture, or of one of its stretches.
pub struct Elements(pub Vec<Element>);

/// The stretches of a picture, each with the sheet's own element around it, and how far each is moved down. The first one has all
/// that belongs to no stretch too.
pub fn stretches(text: &str) -> Vec<(i64, Elements)> {
    let (sheet, _) = text.split_once("<style>").expect("the styles follow the sheet's size");
    let body = text.strip_suffix("</svg>\n").expect("the sheet is closed");
    let mut parts = body.split("<g class=\"stretch\" transform=\"translate(0 ");
    let first = parts.next().map(|part| (0, Elements::of(&format!("{part}</svg>"))));
    let others = parts.map(|part| {
        let (down, rest) = part.split_once(")\">").expect("a group says how far it is moved");
        let rest = rest.strip_suffix("</g>\n").expect("a stretch is closed before the next");
        (number(down), Elements::of(&format!("{sheet}{rest}</svg>")))
    });
    first.into_iter().chain(others).collect()
}

impl Elements {
    /// The elements of a text in XML, which are closed in the reverse of the order in which they are opened.
    pub fn of(text: &str) -> Elements {
        let mut found: Vec<Element> = Vec::new();
        let mut open = Vec::new();
        for part in text.split('<').skip(1) {
            let (tag, behind) = part.split_once('>').expect("a tag ends");
            if let Some(name) = tag.strip_prefix('/') {
                let last: usize = open.pop().expect("a tag is closed that was opened");
                assert_eq!(found[last].name, name);
                if let Some(&around) = open.last() {
                    found[around].text += behind;
                }
                continue;
            }
            let (body, whole) = tag.strip_suffix('/').map_or((tag, false), |body| (body, true));
            let (name, rest) = body.split_once(' ').unwrap_or((body, ""));
            let attributes = attributes(rest);
            assert!(found.is_empty() || !open.is_empty(), "one element holds all");
            found.push(Element { name: name.to_string(), attributes, within: open.clone(), text: behind.to_string() });
            if !whole {
                open.push(found.len() - 1);
            }
        }
        assert!(open.is_empty(), "each element is closed");
        Elements(found)
    }

    /// The elements with this value of an attribute.
    pub fn with<'a>(&'a self, attribute: &'a str, value: &'a str) -> impl Iterator<Item = &'a Element> {
        self.0.iter().filter(move |element| element.get(attribute) == value)
    }

    /// The one element with this value of an attribute, and its place.
    pub fn only(&self, attribute: &str, value: &str) -> (usize, &Element) {
        let mut hits = self.0.iter().enumerate().filter(|(_, element)| element.get(attribute) == value);
        let hit = hits.next().unwrap_or_else(|| panic!("no {attribute} {value}"));
        assert!(hits.next().is_none(), "two of {attribute} {value}");
        hit
    }

    /// The elements that the one at a place holds itself.
    pub fn inside(&self, group: usize) -> impl Iterator<Item = &Element> {
        self.0.iter().filter(move |element| element.within.last() == Some(&group))
    }

    /// The place of the one group of a class that the group at a place holds itself.
    pub fn group_in(&self, group: usize, class: &str) -> usize {
        let own = |element: &Element| element.within.last() == Some(&group) && element.get("class") == class;
        let mut hits = (0..self.0.len()).filter(|&place| own(&self.0[place]));
        let hit = hits.next().unwrap_or_else(|| panic!("no group {class}"));
        assert!(hits.next().is_none(), "two groups {class}");
        hit
    }

    /// The curves' shapes, those of the keys first, and the lines at their PVIs.
    pub fn outlines(&self) -> Vec<Outline> {
        let classes = ["pvi", "crest", "sag", "crest changed", "sag changed", "old"];
        let paths = self.0.iter().filter(|element| classes.contains(&element.get("class")));
        paths.map(Element::outline).collect()
    }

    /// The height of the sheet.
    pub fn height(&self) -> i64 {
        let [left, top, width, height] = self.0[0].get("viewBox").split(' ').map(number).collect::<Vec<_>>()[..] else {
            panic!("a picture has its size")
        };
        assert_eq!([left, top, width], [0, 0, 160_000]);
        height
    }

    /// The texts in a group, those of the parts of a text too.
    pub fn words(&self, group: usize) -> impl Iterator<Item = &str> {
        let texts = self.0.iter().filter(move |element| element.within.contains(&group));
        texts.map(|element| element.text.trim_end()).filter(|text| !text.is_empty())
    }

    /// The rectangles in a group: x, y, width and height.
    pub fn rectangles(&self, group: usize) -> Vec<[i64; 4]> {
        let rectangles = self.inside(group).filter(|element| element.name == "rect");
        rectangles.map(|element| ["x", "y", "width", "height"].map(|name| element.number(name))).collect()
    }
}

fn attributes(text: &str) -> HashMap<String, String> {
    let parts: Vec<&str> = text.split('"').collect();
    assert!(parts.len() % 2 == 1 && parts.last().is_some_and(|last| last.trim().is_empty()), "{text}");
    let pairs = parts.chunks_exact(2).map(|pair| {
        let name = pair[0].trim_start().strip_suffix('=').expect("an attribute has a value");
        (name.to_string(), pair[1].to_string())
    });
    pairs.collect()
}
