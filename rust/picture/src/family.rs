//! Many trees of one table on one page: a numbered tile for each, with its wiring and without its gates' tables.
//!
//! In a tile the inputs are at the left, one below the other in the order of the tree, so no wires cross. A gate is a numbered disc in the column of its layer.

use crate::elements::Elements;
use crate::layout::Area;
use crate::tree::root;
use sitgurp::{Net, Wire};

/// The height of an input's line.
const LINE: i32 = 22;
/// At least the width of a letter of an input's name.
const LETTER: i32 = 8;
/// Between two columns of gates.
const COLUMN: i32 = 34;
/// The radius of a gate's disc.
const RADIUS: i32 = 9;
/// The room for a tile's number.
const TITLE: i32 = 26;
/// Around the drawing in a tile.
const PADDING: i32 = 12;
/// Between two tiles, and around them.
const GAP: i32 = 14;
/// The room for what is written above the tiles.
const HEAD: i32 = 36;
/// The narrowest page that holds what is written above the tiles.
const LEAST_WIDTH: i32 = 460;

const STYLE: &str = "\
.tile { fill: #ffffff; stroke: #cbd2d9; stroke-width: 1; }
.leaf { font-size: 13px; text-anchor: end; }
.disc { fill: #ffffff; stroke: #3e4c59; stroke-width: 1.5; }
.which { font-size: 11px; }
.title { font-size: 13px; font-weight: bold; text-anchor: start; }
.layers { font-size: 11px; fill: #616e7c; text-anchor: end; }
";

/// The page of some trees, each with its number, and of how many there are in all.
///
/// # Panics
///
/// Where there is no tree to draw.
pub fn draw(trees: &[(u64, Net)], all: u64) -> String {
    let first = &trees[0].1;
    let names = first.names().iter().map(String::len).max().unwrap_or(0);
    let labels = LETTER * names as i32 + 6;
    let leaves = first.names().len() - first.unused().len();
    let layers = trees.iter().map(|(_, net)| net.layers()).max().unwrap_or(1);
    let tile = Area {
        x: 0,
        y: 0,
        width: 2 * PADDING + labels + COLUMN * layers as i32 + COLUMN,
        height: TITLE + LINE * leaves as i32 + PADDING,
    };
    let columns = columns(trees.len(), &tile);
    let rows = trees.len().div_ceil(columns);
    let width = GAP + columns as i32 * (tile.width + GAP);
    let height = HEAD + rows as i32 * (tile.height + GAP);
    let title = heading(trees, all);
    let mut page = Elements::open(width.max(LEAST_WIDTH), height, &title, STYLE);
    page.text("caption", GAP, HEAD / 2, &title);
    for (k, (number, net)) in trees.iter().enumerate() {
        let area = Area {
            x: GAP + (k % columns) as i32 * (tile.width + GAP),
            y: HEAD + (k / columns) as i32 * (tile.height + GAP),
            ..tile
        };
        draw_tile(&mut page, *number, net, &area, labels);
    }
    page.close()
}

/// What is written above the tiles.
fn heading(trees: &[(u64, Net)], all: u64) -> String {
    let net = &trees[0].1;
    let (first, last) = (trees[0].0, trees[trees.len() - 1].0);
    let which = match (trees.len() as u64 == all, first == last) {
        (true, true) => "The only tree".to_string(),
        (true, false) => format!("All {all} trees"),
        (false, true) => format!("Tree {first} of {all}"),
        (false, false) => format!("Trees {first} to {last} of {all}"),
    };
    let unused = net.unused();
    let names: Vec<&str> = unused.iter().map(|&k| net.names()[k].as_str()).collect();
    match names.is_empty() {
        true => format!("{which}; {} levels", net.levels()),
        false => format!(
            "{which}; {} levels; not used: {}",
            net.levels(),
            names.join(", ")
        ),
    }
}

/// How many tiles are side by side, for a page that is somewhat wider than high.
fn columns(tiles: usize, tile: &Area) -> usize {
    let is_wide = |&columns: &usize| {
        let rows = tiles.div_ceil(columns) as i32;
        let (width, height) = (columns as i32 * tile.width, rows * tile.height);
        3 * width >= 4 * height
    };
    (1..=tiles).find(is_wide).unwrap_or(tiles)
}

fn draw_tile(page: &mut Elements, number: u64, net: &Net, area: &Area, labels: i32) {
    page.rect("tile", area, " rx=\"6\"");
    let y = area.y + TITLE / 2;
    page.text("title", area.x + PADDING, y, &number.to_string());
    let layers = match net.layers() {
        1 => "1 layer".to_string(),
        layers => format!("{layers} layers"),
    };
    page.text("layers", area.right() - PADDING, y, &layers);
    let mut drawing = Drawing {
        page,
        net,
        names: area.x + PADDING + labels,
        line: area.y + TITLE,
    };
    let (x, y, _) = drawing.wire(root(net));
    let end = x + COLUMN / 2 + RADIUS;
    drawing.page.wire(&format!("M {} {y} H {end}", x + RADIUS));
}

/// A tile as far as it is drawn.
struct Drawing<'a> {
    page: &'a mut Elements,
    net: &'a Net,
    /// Where the names end.
    names: i32,
    /// The top of the next input's line.
    line: i32,
}

impl Drawing<'_> {
    /// Draws what a wire comes from, and returns where that is and its layer, 0 for an input.
    fn wire(&mut self, wire: Wire) -> (i32, i32, i32) {
        let gate = match wire {
            Wire::Input(input) => {
                let y = self.line + LINE / 2;
                self.line += LINE;
                self.page
                    .text("leaf", self.names, y, &self.net.names()[input]);
                return (self.names + 4, y, 0);
            }
            Wire::Gate(gate) => gate,
        };
        let below =
            [self.net.gates()[gate].left, self.net.gates()[gate].right].map(|wire| self.wire(wire));
        let [(left, top, above), (right, bottom, beneath)] = below;
        let layer = above.max(beneath) + 1;
        let (x, y) = (self.names + COLUMN * layer, (top + bottom) / 2);
        for (from, level, is_gate) in [(left, top, above > 0), (right, bottom, beneath > 0)] {
            let from = if is_gate { from + RADIUS } else { from };
            self.page.wire(&format!("M {from} {level} H {x} V {y}"));
        }
        self.page.circle("disc", x, y, RADIUS);
        self.page.text("which", x, y, &(gate + 1).to_string());
        (x, y, layer)
    }
}
