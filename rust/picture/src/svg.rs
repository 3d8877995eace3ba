//! A net drawn as SVG.

use crate::elements::Elements;
use crate::layout::{Area, Layout, Path, CAPTION, CELL, HEADING, OUTPUT, PADDING, TITLE};
use crate::tree::{digit, root};
use sitgurp::Net;

/// The distance between two lines under the tree.
const CAPTION_LINE: i32 = 18;

/// The style of an input that no gate refers to.
const UNUSED: &str = "\
.unused { fill: none; stroke: #9aa5b1; stroke-width: 1.5; stroke-dasharray: 4 3; }
";

pub fn draw(net: &Net) -> String {
    let layout = Layout::of(net);
    let (levels, inputs) = (net.levels(), net.names().len());
    let title = format!("A net of {levels} levels and {inputs} inputs");
    let unused = net.unused();
    let style = if unused.is_empty() { "" } else { UNUSED };
    let mut page = Elements::open(layout.width, layout.height, &title, style);
    for path in layout.wires.iter().flatten() {
        wire(&mut page, path);
    }
    for (k, (name, area)) in net.names().iter().zip(&layout.areas.inputs).enumerate() {
        let class = if unused.contains(&k) {
            "unused"
        } else {
            "input"
        };
        input(&mut page, class, name, area);
    }
    for number in 0..net.gates().len() {
        gate(&mut page, net, number, &layout.areas.gates[number]);
    }
    output(&mut page, &layout.areas.at(root(net)));
    caption(&mut page, &layout, !unused.is_empty());
    page.close()
}

fn wire(page: &mut Elements, path: &Path) {
    let Path { from, turn, to } = path;
    let (x, y) = from;
    let (end, level) = to;
    page.wire(&format!("M {x} {y} H {turn} V {level} H {end}"));
}

fn input(page: &mut Elements, class: &str, name: &str, area: &Area) {
    page.rect(class, area, " rx=\"14\"");
    page.text("name", area.x + area.width / 2, area.middle(), name);
}

fn gate(page: &mut Elements, net: &Net, gate: usize, area: &Area) {
    page.rect("gate", area, " rx=\"6\"");
    let number = format!("gate {}", gate + 1);
    let middle = area.x + area.width / 2;
    page.text("number", middle, area.y + TITLE / 2, &number);
    let (x, y) = (area.x + PADDING + HEADING, area.y + TITLE + HEADING);
    levels(page, net.levels(), x, y);
    for row in 0..net.levels() {
        for column in 0..net.levels() {
            let cell = cell_at(x, y, row, column);
            page.cell(digit(net, gate, row, column), net.levels(), &cell);
        }
    }
}

/// Adds left's levels down the grid, and right's across it.
fn levels(page: &mut Elements, levels: usize, x: i32, y: i32) {
    for level in 0..levels {
        let along = CELL * level as i32 + CELL / 2;
        let text = level.to_string();
        page.text("level", x - HEADING / 2, y + along, &text);
        page.text("level", x + along, y - HEADING / 2, &text);
    }
}

fn output(page: &mut Elements, last: &Area) {
    let (x, y) = (last.right(), last.middle());
    let end = x + OUTPUT / 2;
    page.wire(&format!("M {x} {y} H {end}"));
    page.text("output", x + OUTPUT * 3 / 4, y, "ink");
}

fn caption(page: &mut Elements, layout: &Layout, has_unused: bool) {
    let x = layout.areas.inputs[0].x;
    let lowest = layout.height - CAPTION / 2;
    let mut lines = vec![
        "upper wire: left, picks the row",
        "lower wire: right, picks the column",
    ];
    if has_unused {
        lines.push("dashed: an input that is not used");
    }
    for (k, line) in lines.iter().enumerate() {
        let up = CAPTION_LINE * (lines.len() - 1 - k) as i32;
        page.text("caption", x, lowest - up, line);
    }
}

fn cell_at(x: i32, y: i32, row: usize, column: usize) -> Area {
    Area {
        x: x + CELL * column as i32,
        y: y + CELL * row as i32,
        width: CELL,
        height: CELL,
    }
}
