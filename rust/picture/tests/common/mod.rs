//! Shared by the tests: nets of every allowed size, and a reader of drawings that does not know how they are made.
#![allow(dead_code)]

use reference::generate::Generator;
use reference::net::{Gate, Net, Wire};
use reference::sheet::print_net_sheet;

pub const SEED: u64 = 1_971;
const NETS_OF_A_SIZE: usize = 20;

/// Returns net sheets of every allowed size: random ones, some of which leave inputs out, and the two chains, which are the deepest trees.
pub fn net_sheets() -> Vec<Vec<u8>> {
    println!("seed {SEED}");
    let mut generator = Generator::new(SEED);
    let mut sheets = Vec::new();
    for (m, n) in reference::allowed_sizes() {
        let (m, n) = (m as usize, n as usize);
        for _ in 0..NETS_OF_A_SIZE {
            sheets.push(generator.net_sheet(m, n));
        }
        for left in [true, false] {
            let header = generator.header(m, n);
            let net = chain(generator.net_of_all_inputs(m, n), left);
            sheets.push(print_net_sheet(&header, &net));
        }
    }
    sheets
}

/// Returns the same gates wired as a chain: every gate takes the one before it, as left or as right.
fn chain(net: Net, left: bool) -> Net {
    let gates = net.gates.iter().enumerate().map(|(k, gate)| {
        let before = if k == 0 {
            Wire::Input(0)
        } else {
            Wire::Gate(k)
        };
        let sides = [before, Wire::Input(k + 1)];
        Gate {
            left: sides[usize::from(!left)],
            right: sides[usize::from(left)],
            digits: gate.digits.clone(),
        }
    });
    let gates = gates.collect();
    Net { gates, ..net }
}

/// A rectangle of a drawing.
#[derive(Clone, Debug, PartialEq)]
pub struct Rect {
    pub class: String,
    pub x: i32,
    pub y: i32,
    pub right: i32,
    pub bottom: i32,
    pub fill: Option<String>,
}

impl Rect {
    pub fn holds(&self, x: i32, y: i32) -> bool {
        self.x < x && x < self.right && self.y < y && y < self.bottom
    }
}

/// A text of a drawing, with the place of its middle (of its left end for texts under the tree).
#[derive(Clone, Debug, PartialEq)]
pub struct Text {
    pub class: String,
    pub x: i32,
    pub y: i32,
    pub text: String,
}

/// The elements of a drawing; a wire is given by its corners.
pub struct Drawn {
    pub rects: Vec<Rect>,
    pub texts: Vec<Text>,
    pub wires: Vec<Vec<(i32, i32)>>,
}

impl Drawn {
    pub fn read(svg: &str) -> Drawn {
        let elements = |kind: &'static str| svg.lines().filter(move |line| line.starts_with(kind));
        Drawn {
            rects: elements("<rect ").map(rect).collect(),
            texts: elements("<text ").map(text).collect(),
            wires: elements("<path ").map(wire).collect(),
        }
    }

    /// Returns the boxes of inputs, used and unused, and of gates.
    pub fn boxes(&self) -> Vec<&Rect> {
        let is_box = |rect: &&Rect| ["input", "unused", "gate"].contains(&rect.class.as_str());
        self.rects.iter().filter(is_box).collect()
    }

    /// Returns the texts of a class inside a rectangle, by rows.
    pub fn inside(&self, rect: &Rect, class: &str) -> Vec<&str> {
        let mut texts: Vec<&Text> = self
            .texts
            .iter()
            .filter(|text| text.class == class && rect.holds(text.x, text.y))
            .collect();
        texts.sort_by_key(|text| (text.y, text.x));
        texts.iter().map(|text| text.text.as_str()).collect()
    }
}

fn attribute<'a>(element: &'a str, name: &str) -> Option<&'a str> {
    let start = element.find(&format!(" {name}=\""))? + name.len() + 3;
    element[start..].split('"').next()
}

fn number(element: &str, name: &str) -> i32 {
    let text = attribute(element, name).unwrap_or_else(|| panic!("no {name} in {element}"));
    text.parse().expect("a whole number")
}

fn class(element: &str) -> String {
    attribute(element, "class").expect("a class").to_string()
}

fn rect(element: &str) -> Rect {
    let (x, y) = (number(element, "x"), number(element, "y"));
    Rect {
        class: class(element),
        x,
        y,
        right: x + number(element, "width"),
        bottom: y + number(element, "height"),
        fill: attribute(element, "fill").map(str::to_string),
    }
}

fn text(element: &str) -> Text {
    let content = element.split(['>', '<']).nth(2).expect("a content");
    Text {
        class: class(element),
        x: number(element, "x"),
        y: number(element, "y"),
        text: content.to_string(),
    }
}

/// Returns the corners of a path with the commands M, H and V.
fn wire(element: &str) -> Vec<(i32, i32)> {
    let mut words = attribute(element, "d").expect("a path").split(' ');
    let mut corners: Vec<(i32, i32)> = Vec::new();
    while let Some(command) = words.next() {
        let mut next = || words.next().expect("a number").parse().expect("a number");
        let last = corners.last().copied();
        corners.push(match (command, last) {
            ("M", None) => (next(), next()),
            ("H", Some((_, y))) => (next(), y),
            ("V", Some((x, _))) => (x, next()),
            other => panic!("path command {other:?}"),
        });
    }
    corners
}
