//! The place of each box and wire of a tree. Inputs are in a column at the left, the output gate is at the right.
//!
//! A subtree has a band of the page's height to itself: left's band is above right's. So boxes never overlap, and a
//! wire that runs to the right inside its own band meets nothing before it turns in the gap before its gate. Inputs that no
//! gate refers to are below the tree, each in a band of its own.

use crate::tree::root;
use sitgurp::{Gate, Net, Wire};

/// A digit's cell in a gate's grid.
pub const CELL: i32 = 20;
/// The room for the levels to the left of and above a gate's grid.
pub const HEADING: i32 = 16;
/// The room for a gate's number above its grid.
pub const TITLE: i32 = 24;
/// The room inside a gate's box at its right and its bottom.
pub const PADDING: i32 = 8;
/// The room for the text under the tree.
pub const CAPTION: i32 = 60;
/// The room for the output's wire and its word.
pub const OUTPUT: i32 = 72;

const MARGIN: i32 = 24;
const INPUT_HEIGHT: i32 = 28;
/// At least the width of a letter of an input's name.
const LETTER: i32 = 9;
/// The gap between two bands.
const BAND_GAP: i32 = 16;
/// The gap between two columns; wires turn in its middle.
const COLUMN_GAP: i32 = 48;
/// The distance from a gate's corner, and from its middle, at which a wire that has turned meets it.
const INSET: i32 = 12;
/// A wire that would turn by no more than this continues straight.
const LEAST_TURN: i32 = 6;
/// The narrowest page that holds the text under the tree.
const LEAST_WIDTH: i32 = 360;

/// A box; y grows downward.
#[derive(Clone, Copy, Debug, PartialEq, Eq)]
pub struct Area {
    pub x: i32,
    pub y: i32,
    pub width: i32,
    pub height: i32,
}

impl Area {
    pub fn right(&self) -> i32 {
        self.x + self.width
    }

    pub fn bottom(&self) -> i32 {
        self.y + self.height
    }

    /// Returns the height at which its wire leaves.
    pub fn middle(&self) -> i32 {
        self.y + self.height / 2
    }
}

/// A wire: to the right up to `turn`, then up or down, then to the right again.
#[derive(Clone, Copy, Debug, PartialEq, Eq)]
pub struct Path {
    pub from: (i32, i32),
    pub turn: i32,
    pub to: (i32, i32),
}

/// One value for each input and each gate of a tree.
#[derive(Clone, Debug)]
pub struct Each<T> {
    pub inputs: Vec<T>,
    pub gates: Vec<T>,
}

impl<T: Copy> Each<T> {
    pub fn at(&self, wire: Wire) -> T {
        match wire {
            Wire::Input(input) => self.inputs[input],
            Wire::Gate(gate) => self.gates[gate],
        }
    }

    fn set(&mut self, wire: Wire, value: T) {
        match wire {
            Wire::Input(input) => self.inputs[input] = value,
            Wire::Gate(gate) => self.gates[gate] = value,
        }
    }
}

#[derive(Clone, Debug)]
pub struct Layout {
    pub width: i32,
    pub height: i32,
    pub areas: Each<Area>,
    /// Each gate's left and right.
    pub wires: Vec<[Path; 2]>,
}

/// How far a subtree's band extends above and below the middle of its root.
#[derive(Clone, Copy)]
struct Reach {
    above: i32,
    below: i32,
}

impl Layout {
    pub fn of(net: &Net) -> Layout {
        let reaches = reaches(net);
        let band = reaches.at(root(net));
        let bottom = MARGIN + band.above + band.below;
        let unused = net.unused();
        let mut middles = middles(net, &reaches);
        for (k, &input) in unused.iter().enumerate() {
            middles.inputs[input] = unused_top(bottom, k) + BAND_GAP + INPUT_HEIGHT / 2;
        }
        let areas = areas(net, &middles);
        let wires = net.gates().iter().zip(&areas.gates);
        let wires = wires.map(|(gate, &own)| paths(gate, own, &areas)).collect();
        let right = areas.at(root(net)).right() + OUTPUT + MARGIN;
        Layout {
            width: right.max(LEAST_WIDTH),
            height: unused_top(bottom, unused.len()) + CAPTION + MARGIN,
            areas,
            wires,
        }
    }
}

/// Returns where the band of the k-th unused input begins, counted from 0, below a tree that ends at `bottom`.
fn unused_top(bottom: i32, k: usize) -> i32 {
    bottom + (BAND_GAP + INPUT_HEIGHT) * k as i32
}

/// Returns the width and height of every gate of the tree.
fn gate_size(net: &Net) -> (i32, i32) {
    let grid = HEADING + CELL * net.levels() as i32;
    (PADDING + grid + PADDING, TITLE + grid + PADDING)
}

/// Returns the width of every input's box: the longest name decides.
fn input_width(net: &Net) -> i32 {
    let letters = net.names().iter().map(String::len).max().unwrap_or(0);
    LETTER * letters as i32 + 2 * INSET
}

/// Returns the reach of every wire. A gate's wires come from earlier gates, so each gate's reach follows from those before it.
fn reaches(net: &Net) -> Each<Reach> {
    let input = Reach {
        above: INPUT_HEIGHT / 2,
        below: INPUT_HEIGHT / 2,
    };
    let own = gate_size(net).1 / 2;
    let mut reaches = Each {
        inputs: vec![input; net.names().len()],
        gates: Vec::new(),
    };
    for gate in net.gates() {
        let (left, right) = (reaches.at(gate.left), reaches.at(gate.right));
        let half = half_apart(left, right);
        reaches.gates.push(Reach {
            above: own.max(half + left.above),
            below: own.max(half + right.below),
        });
    }
    reaches
}

/// Returns half the distance between the middles of a gate's left and right.
fn half_apart(left: Reach, right: Reach) -> i32 {
    (left.below + BAND_GAP + right.above + 1) / 2
}

/// Returns the middle of every box of the tree, from the output gate back to the inputs.
fn middles(net: &Net, reaches: &Each<Reach>) -> Each<i32> {
    let mut middles = Each {
        inputs: vec![0; net.names().len()],
        gates: vec![0; net.gates().len()],
    };
    middles.set(root(net), MARGIN + reaches.at(root(net)).above);
    for (own, gate) in net.gates().iter().enumerate().rev() {
        let half = half_apart(reaches.at(gate.left), reaches.at(gate.right));
        let middle = middles.gates[own];
        middles.set(gate.left, middle - half);
        middles.set(gate.right, middle + half);
    }
    middles
}

/// Returns the column of every gate: the one after the later of its left's and its right's.
fn columns(net: &Net) -> Vec<i32> {
    let mut columns = Each {
        inputs: vec![-1; net.names().len()],
        gates: Vec::new(),
    };
    for gate in net.gates() {
        let before = columns.at(gate.left).max(columns.at(gate.right));
        columns.gates.push(before + 1);
    }
    columns.gates
}

fn areas(net: &Net, middles: &Each<i32>) -> Each<Area> {
    let inputs_width = input_width(net);
    let (width, height) = gate_size(net);
    let first = MARGIN + inputs_width + COLUMN_GAP;
    let around = |middle: &i32, x, width, height| Area {
        x,
        y: middle - height / 2,
        width,
        height,
    };
    let inputs = middles.inputs.iter();
    let gates = middles.gates.iter().zip(columns(net));
    Each {
        inputs: inputs
            .map(|middle| around(middle, MARGIN, inputs_width, INPUT_HEIGHT))
            .collect(),
        gates: gates
            .map(|(middle, column)| (middle, first + column * (width + COLUMN_GAP)))
            .map(|(middle, x)| around(middle, x, width, height))
            .collect(),
    }
}

/// Returns the wires of a gate's left and right. Left's meets the gate above its middle, right's below it.
fn paths(gate: &Gate, own: Area, areas: &Each<Area>) -> [Path; 2] {
    let path = |from: Area, highest: i32, lowest: i32| Path {
        from: (from.right(), from.middle()),
        turn: own.x - COLUMN_GAP / 2,
        to: (own.x, pin(from.middle(), highest, lowest)),
    };
    let (left, right) = (areas.at(gate.left), areas.at(gate.right));
    [
        path(left, own.y + INSET, own.middle() - INSET),
        path(right, own.middle() + INSET, own.bottom() - INSET),
    ]
}

/// Returns the height at which a wire that arrives at some height meets its gate.
fn pin(height: i32, highest: i32, lowest: i32) -> i32 {
    let nearest = height.clamp(highest, lowest);
    if (nearest - height).abs() <= LEAST_TURN {
        height
    } else {
        nearest
    }
}
