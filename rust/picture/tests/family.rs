//! The trees that a reader sees on a page of many, by looking at where names, discs and wires lie, are the trees that were drawn.

use crate::common::{net_sheets, Drawn, Rect, Text};
use sitgurp::{Net, Table, Wire};

/// How far a wire may begin from the middle of a disc or from the end of a name.
const NEAR: i32 = 10;

/// The texts of a class in a tile, from the top.
fn texts<'a>(drawn: &'a Drawn, tile: &Rect, class: &str) -> Vec<&'a Text> {
    let is_here = |text: &&Text| text.class == class && tile.holds(text.x, text.y);
    let mut texts: Vec<&Text> = drawn.texts.iter().filter(is_here).collect();
    texts.sort_by_key(|text| (text.y, text.x));
    texts
}

/// The gates that are seen in a tile: number, what is at its upper wire, what is at its lower one.
fn gates(drawn: &Drawn, tile: &Rect) -> Vec<[String; 3]> {
    let (names, discs) = (texts(drawn, tile, "leaf"), texts(drawn, tile, "which"));
    let source = |(x, y): (i32, i32)| {
        let at = |text: &&&Text| text.y == y && (0..=NEAR).contains(&(x - text.x));
        let mut found = names.iter().chain(&discs).filter(at);
        let source = found.next().expect("a wire begins at a name or at a disc");
        assert!(found.next().is_none(), "it begins at one of them");
        source.text.clone()
    };
    let gate = |disc: &&Text| {
        let ends = |wire: &&Vec<(i32, i32)>| wire.len() == 3 && wire[2] == (disc.x, disc.y);
        let mut wires: Vec<_> = drawn.wires.iter().filter(ends).collect();
        wires.sort_by_key(|wire| wire[0].1);
        let [upper, lower] = wires[..] else {
            panic!("two wires to a disc");
        };
        [disc.text.clone(), source(upper[0]), source(lower[0])]
    };
    let mut gates: Vec<[String; 3]> = discs.iter().map(gate).collect();
    gates.sort_by_key(|[number, ..]| number.parse::<usize>().expect("a number"));
    gates
}

/// The same of the net itself.
fn due(net: &Net) -> Vec<[String; 3]> {
    let name = |wire: Wire| match wire {
        Wire::Input(input) => net.names()[input].clone(),
        Wire::Gate(gate) => (gate + 1).to_string(),
    };
    let gates = net.gates().iter().enumerate();
    gates
        .map(|(k, gate)| [(k + 1).to_string(), name(gate.left), name(gate.right)])
        .collect()
}

/// Whether each tree is in a tile of its own, with its number, and nothing lies on anything else.
fn is_drawn(trees: &[(u64, Net)], all: u64) {
    let drawn = Drawn::read(&picture::family::draw(trees, all));
    let page = drawn
        .rects
        .iter()
        .find(|rect| rect.class == "page")
        .expect("a page");
    let tiles: Vec<&Rect> = drawn
        .rects
        .iter()
        .filter(|rect| rect.class == "tile")
        .collect();
    assert_eq!(tiles.len(), trees.len());
    for (k, (tile, (number, net))) in tiles.iter().zip(trees).enumerate() {
        let is_apart = |other: &&Rect| {
            tile.x > other.right
                || other.x > tile.right
                || tile.y > other.bottom
                || other.y > tile.bottom
        };
        assert!(tiles[..k].iter().all(is_apart), "tiles are apart");
        assert!(page.holds(tile.x, tile.y) && page.holds(tile.right, tile.bottom));
        assert_eq!(texts(&drawn, tile, "title")[0].text, number.to_string());
        let layers = texts(&drawn, tile, "layers")[0].text.clone();
        assert_eq!(
            layers.split(' ').next(),
            Some(net.layers().to_string().as_str())
        );
        assert_eq!(gates(&drawn, tile), due(net));
        let names = texts(&drawn, tile, "leaf");
        assert_eq!(names.len() + net.unused().len(), net.names().len());
        assert!(
            names.windows(2).all(|pair| pair[1].y - pair[0].y >= 20),
            "names are apart"
        );
    }
    // every corner of every wire is in a tile
    for corner in drawn.wires.iter().flatten() {
        assert!(tiles.iter().any(|tile| tile.holds(corner.0, corner.1)));
    }
}

#[test]
fn a_page_of_one_tree_of_every_size() {
    for sheet in net_sheets() {
        is_drawn(&[(0, Net::read(&sheet).expect("a good sheet"))], 1);
    }
}

#[test]
fn families() {
    for (inputs, from) in [(2, 0), (3, 0), (4, 3), (6, 900), (9, 1_000_000)] {
        let names: Vec<String> = (0..inputs).map(|input| format!("i{input}")).collect();
        let sum = |row: &[u8]| row.iter().sum::<u8>() % 2;
        let table = Table::from_rule(2, &names, sum).expect("a table");
        let family = table.family().expect("a full table");
        let end = family.size().min(from + 45);
        let tree = |number| (number, family.tree(number).expect("a tree of the family"));
        is_drawn(&(from..end).map(tree).collect::<Vec<_>>(), family.size());
    }
}
