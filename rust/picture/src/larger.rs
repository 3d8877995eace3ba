//! A tree with gates of more than two inputs drawn as SVG. Inputs are at the left, the output at the right. A gate's table is a grid: its first
//! inputs pick the row, the others the column.

use crate::elements::Elements;
use crate::layout::Area;
use search::{Larger, Source};

const MARGIN: i32 = 24;
const CELL: i32 = 20;
/// The room above a gate's grid, and around it.
const TITLE: i32 = 24;
const PADDING: i32 = 8;
/// The gap between two boxes above each other, and between two columns of boxes.
const GAP: i32 = 16;
const COLUMN_GAP: i32 = 56;
const INPUT_HEIGHT: i32 = 28;
const LETTER: i32 = 9;
const OUTPUT: i32 = 72;
const CAPTION: i32 = 48;

/// How a gate's table is read.
const ROWS: &str = "the upper wires of a gate pick the row, the others the column";

/// Where each box is: one for each input of the tree, and one for each gate.
struct Places {
    inputs: Vec<Option<Area>>,
    gates: Vec<Area>,
}

impl Places {
    fn at(&self, source: Source) -> Area {
        match source {
            Source::Input(input) => self.inputs[input].expect("an input of the tree"),
            Source::Gate(gate) => self.gates[gate],
        }
    }
}

/// Draws the tree.
pub fn draw(tree: &Larger) -> String {
    let places = places(tree);
    let last = places.gates[tree.gates.len() - 1];
    let areas = places.inputs.iter().flatten().chain(&places.gates);
    let bottom = areas.map(Area::bottom).max().unwrap_or(0);
    let title = format!(
        "A tree of gates with up to {} inputs; not a net",
        tree.largest()
    );
    let words = LETTER * title.len().max(ROWS.len()) as i32;
    let width = (last.right() + OUTPUT).max(words) + MARGIN;
    let mut page = Elements::open(width, bottom + CAPTION + MARGIN, &title, "");
    for gate in 0..tree.gates.len() {
        wires(&mut page, tree, gate, &places);
    }
    for (name, area) in tree.names.iter().zip(&places.inputs) {
        if let Some(area) = area {
            page.rect("input", area, " rx=\"14\"");
            page.text("name", area.x + area.width / 2, area.middle(), name);
        }
    }
    for gate in 0..tree.gates.len() {
        draw_gate(&mut page, tree, gate, &places.gates[gate]);
    }
    let (x, y) = (last.right(), last.middle());
    page.wire(&format!("M {x} {y} H {}", x + OUTPUT / 2));
    page.text("output", x + OUTPUT * 3 / 4, y, "ink");
    page.text("caption", MARGIN, bottom + CAPTION / 2, &title);
    page.text("caption", MARGIN, bottom + CAPTION, ROWS);
    page.close()
}

/// Returns how many rows and columns a gate's grid has.
fn grid(tree: &Larger, gate: usize) -> (usize, usize) {
    let inputs = tree.gates[gate].sources.len() as u32;
    (
        tree.levels.pow(inputs.div_ceil(2)),
        tree.levels.pow(inputs / 2),
    )
}

fn gate_size(tree: &Larger, gate: usize) -> (i32, i32) {
    let (rows, columns) = grid(tree, gate);
    let width = (CELL * columns as i32).max(6 * LETTER);
    (width + 2 * PADDING, TITLE + CELL * rows as i32 + PADDING)
}

/// Gives every subtree a band of the page to itself, and every gate the column after those below it.
fn places(tree: &Larger) -> Places {
    let mut places = Places {
        inputs: vec![None; tree.names.len()],
        gates: vec![
            Area {
                x: 0,
                y: 0,
                width: 0,
                height: 0
            };
            tree.gates.len()
        ],
    };
    put(
        tree,
        Source::Gate(tree.gates.len() - 1),
        MARGIN,
        &mut places,
    );
    let letters = tree.names.iter().map(String::len).max().unwrap_or(0) as i32;
    let width = LETTER * letters + 2 * PADDING;
    for area in places.inputs.iter_mut().flatten() {
        area.width = width;
    }
    for gate in 0..tree.gates.len() {
        let below = tree.gates[gate]
            .sources
            .iter()
            .map(|&source| places.at(source).right());
        places.gates[gate].x = below.max().unwrap_or(0) + COLUMN_GAP;
    }
    places
}

/// Returns the height of a subtree's band.
fn band(tree: &Larger, source: Source) -> i32 {
    match source {
        Source::Input(_) => INPUT_HEIGHT,
        Source::Gate(gate) => gate_size(tree, gate).1.max(below(tree, gate)),
    }
}

/// Returns the height of all bands below a gate.
fn below(tree: &Larger, gate: usize) -> i32 {
    let sources = tree.gates[gate].sources.iter();
    sources.map(|&source| band(tree, source) + GAP).sum::<i32>() - GAP
}

/// Places a subtree in its band, which begins at a height.
fn put(tree: &Larger, source: Source, top: i32, places: &mut Places) {
    let band_height = band(tree, source);
    let gate = match source {
        Source::Input(input) => {
            places.inputs[input] = Some(Area {
                x: MARGIN,
                y: top,
                width: 0,
                height: INPUT_HEIGHT,
            });
            return;
        }
        Source::Gate(gate) => gate,
    };
    let (width, height) = gate_size(tree, gate);
    let y = top + (band_height - height) / 2;
    places.gates[gate] = Area {
        x: 0,
        y,
        width,
        height,
    };
    let mut next = top + (band_height - below(tree, gate)) / 2;
    for &source in &tree.gates[gate].sources {
        put(tree, source, next, places);
        next += band(tree, source) + GAP;
    }
}

/// Draws the wires of a gate: each to the right, then up or down in the gap before the gate, then into it. Among wires that go down the lower
/// ones turn first, and among those that go up the upper ones, so that none cross.
fn wires(page: &mut Elements, tree: &Larger, gate: usize, places: &Places) {
    let own = places.gates[gate];
    let sources = &tree.gates[gate].sources;
    let count = sources.len() as i32;
    let room = (COLUMN_GAP - 16) / count;
    for (k, &source) in (0..).zip(sources) {
        let from = places.at(source);
        let y = own.y + own.height / (count + 1) * (k + 1);
        let turns = if y > from.middle() { count - k } else { k + 1 };
        let turn = own.x - COLUMN_GAP + 8 + room * turns;
        page.wire(&format!(
            "M {} {} H {turn} V {y} H {}",
            from.right(),
            from.middle(),
            own.x
        ));
    }
}

fn draw_gate(page: &mut Elements, tree: &Larger, gate: usize, area: &Area) {
    page.rect("gate", area, " rx=\"6\"");
    let number = format!("gate {}", gate + 1);
    page.text(
        "number",
        area.x + area.width / 2,
        area.y + TITLE / 2,
        &number,
    );
    let (rows, columns) = grid(tree, gate);
    for row in 0..rows {
        for column in 0..columns {
            let cell = Area {
                x: area.x + PADDING + CELL * column as i32,
                y: area.y + TITLE + CELL * row as i32,
                width: CELL,
                height: CELL,
            };
            page.cell(
                tree.gates[gate].digits[row * columns + column],
                tree.levels,
                &cell,
            );
        }
    }
}
