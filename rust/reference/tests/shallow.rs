//! Shallow making and settling, compared with every wiring of any of a table's inputs:
//! at small sizes each one is tried, and which of them compute the table is decided
//! without the library's groups and marks.

use crate::common::wirings::*;
use crate::common::*;
use reference::damage::byte_damages;
use reference::generate::{Generator, TableKind};
use reference::sheet::read_net_sheet;
use reference::{allowed_sizes, make, make_shallow, settle, settle_shallow};
use std::collections::BTreeMap;

/// Returns every wiring of any of n inputs.
fn all_wirings(n: usize) -> Vec<Wiring> {
    all_leaves(n).flat_map(wirings).collect()
}

/// Compares a shallow sheet and its count with the joints of all wirings that
/// compute the table, on any leaves: no tree has fewer layers, and none has
/// a gate for the same inputs with fewer layers below it, or as few and a left part
/// of lower number.
fn assert_shallowest(net: &[u8], count: usize, computing: &[&Vec<Joint>]) {
    let shallow = Wiring::of_sheet(net);
    let layers = |joints: &Vec<Joint>| joints.last().expect("a gate").layers;
    let least = computing.iter().map(|joints| layers(joints)).min();
    assert_eq!(Some(count), least);
    assert_eq!(count, shallow.layers());
    for joint in shallow.joints() {
        let same_group = computing
            .iter()
            .flat_map(|joints| joints.iter())
            .filter(|other| other.group == joint.group);
        let best = same_group.map(|other| (other.layers, other.left)).min();
        assert_eq!(Some((joint.layers, joint.left)), best);
    }
}

/// Compares making a table's shallow net with the wirings that compute it; returns
/// whether it has fewer layers than the settled one.
fn assert_table(m: usize, n: usize, inks: &[u8], computing: &[&Vec<Joint>]) -> bool {
    let sheet = table_sheet(m, names(n), inks);
    match made_shallow(&sheet) {
        Ok((net, layers)) => {
            assert_shallowest(&net, layers, computing);
            assert_eq!(Wiring::of_sheet(&net).group(), leaves(m, n, inks));
            assert_eq!(table_written(&net), Ok(sheet.clone()));
            assert_eq!(settled_shallow(&net), Ok((net, layers)));
            let settled = made(&sheet).expect("a tree");
            layers < Wiring::of_sheet(&settled).layers()
        }
        Err(refusal) => {
            assert!(computing.is_empty());
            assert_eq!(made(&sheet), Err(refusal));
            false
        }
    }
}

// ---- two levels: every filling of every wiring

/// Returns for every table that has a tree the joints of each wiring that computes it.
fn by_filling(n: usize) -> BTreeMap<Bits, Vec<Vec<Joint>>> {
    let mut computing: BTreeMap<Bits, Vec<Vec<Joint>>> = BTreeMap::new();
    for wiring in all_wirings(n) {
        for table in tables_of(&wiring, n) {
            computing.entry(table).or_default().push(wiring.joints());
        }
    }
    computing
}

/// Checks one in every `step` of the tables that have a tree: returns how many there are,
/// and for how many of those checked the settled net has more layers than necessary.
fn assert_trees(n: usize, step: usize) -> (usize, usize) {
    let computing = by_filling(n);
    let spared = computing.iter().step_by(step).filter(|(&table, wirings)| {
        let wirings: Vec<&Vec<Joint>> = wirings.iter().collect();
        assert_table(2, n, &inks_of_bits(n, table), &wirings)
    });
    let spared = spared.count();
    println!(
        "{n} inputs: {} have a tree, {spared} a shallower one",
        computing.len()
    );
    (computing.len(), spared)
}

#[test]
fn tables_of_two_levels_against_every_filling() {
    // as many have a tree as trees.rs finds
    assert_eq!(assert_trees(2, 1), (16, 0));
    assert_eq!(assert_trees(3, 1), (152, 0));
    assert_eq!(assert_trees(4, 1), (2_680, 202));
    let (trees, spared) = assert_trees(5, 7);
    assert!(trees == 68_968 && spared > 900);
}

#[test]
fn the_wirings_are_all_there() {
    // (2n - 3)!!, ignoring sides
    let counts = [2, 3, 4, 5, 6].map(|n| wirings((1 << n) - 1).len());
    assert_eq!(counts, [1, 3, 15, 105, 945]);
}

#[test]
fn a_table_without_a_tree_is_refused_as_by_making() {
    for n in [3, 4] {
        let computing = by_filling(n);
        let without = (0..=mask(n)).filter(|table| !computing.contains_key(table));
        for table in without {
            assert_table(2, n, &inks_of_bits(n, table), &[]);
        }
    }
}

// ---- any levels: a wiring computes a table if its wires can carry it

/// Returns the joints of the wirings that have every input that matters as a leaf, and
/// whose gates have at most m columns each.
fn by_columns<'a>(
    m: usize,
    n: usize,
    inks: &[u8],
    wirings: &'a [Vec<Joint>],
) -> Vec<&'a Vec<Joint>> {
    let fits = carried(m, n, inks);
    let mattering = mattering(m, n, inks);
    let computes = |joints: &&Vec<Joint>| {
        let output = joints.last().expect("a gate");
        mattering & !output.group == 0 && joints.iter().all(|joint| fits[joint.group])
    };
    wirings.iter().filter(computes).collect()
}

#[test]
fn tables_of_more_levels_against_every_wiring() {
    let seed = 1_024;
    println!("seed {seed}");
    let mut generator = Generator::new(seed);
    let mut spared = 0;
    for (m, n, rounds) in [
        (3, 3, 100),
        (9, 3, 10),
        (2, 4, 50),
        (3, 4, 50),
        (4, 4, 20),
        (6, 4, 5),
        (2, 5, 40),
        (3, 5, 20),
        (4, 5, 5),
        (2, 6, 20),
        (3, 6, 4),
        (2, 7, 4),
    ] {
        let wirings: Vec<Vec<Joint>> = all_wirings(n).iter().map(Wiring::joints).collect();
        for kind in TableKind::ALL {
            for _ in 0..rounds {
                let inks = generator.table(m, n, kind).inks;
                let computing = by_columns(m, n, &inks, &wirings);
                spared += usize::from(assert_table(m, n, &inks, &computing));
            }
        }
    }
    println!("{spared} tables have a tree with fewer layers than the settled net");
    assert!(spared > 100);
}

/// The first four inputs are joined in two layers, where a third would not make the whole
/// any deeper.
#[test]
fn a_group_is_shallow_where_the_whole_has_room_to_spare() {
    let rule = |x: &[usize]| (x[0] ^ x[1] ^ x[2] ^ x[3]) | (x[4] & (x[5] ^ (x[6] & x[7])));
    let sheet = rule_sheet(2, names(8), rule);
    let rest = "g h 0001/f 4 0110/e 5 0001/3 6 0111";
    let shallow = format!("a b 0110/c d 0110/1 2 0110/{rest}");
    let settled = format!("c d 0110/b 1 0110/a 2 0110/{rest}");
    let shallow = net_sheet(2, names(8), &shallow);
    assert_eq!(made_shallow(&sheet), Ok((shallow.clone(), 4)));
    let settled = net_sheet(2, names(8), &settled);
    assert_eq!(made(&sheet), Ok(settled.clone()));
    assert_eq!(settled_shallow(&settled), Ok((shallow, 4)));
    assert_eq!(Wiring::of_sheet(&settled).layers(), 4);
}

/// A sum may be wired in any way, so its layers are the fewest that n inputs can
/// have; least and greatest alternately can be wired in only one way.
#[test]
fn sums_and_chains() {
    let layers = [1, 2, 2, 3, 3, 3, 3, 4, 4, 4, 4];
    for (n, layers) in (2..=12).zip(layers) {
        let sum = rule_sheet(2, names(n), |x| x.iter().sum::<usize>() % 2);
        assert_eq!(made_shallow(&sum).expect("a tree").1, layers);
        let chain = rule_sheet(2, names(n), |x| {
            (1..n).fold(x[0], |value, k| match k % 2 {
                0 => value.max(x[k]),
                _ => value.min(x[k]),
            })
        });
        let (net, layers) = made_shallow(&chain).expect("a tree");
        assert_eq!((Ok(net), layers), (made(&chain), n - 1));
    }
    let gates = "b c 0110/d e 0110/1 2 0110/a 3 0110";
    let sum = rule_sheet(2, names(5), |x| x.iter().sum::<usize>() % 2);
    assert_eq!(made_shallow(&sum), Ok((net_sheet(2, names(5), gates), 3)));
}

/// "Every other tree computing that table has at least as many layers." "The
/// settled net of document 01 stays the default."
#[test]
fn nets_of_every_size() {
    let seed = 1_025;
    println!("seed {seed}");
    let mut generator = Generator::new(seed);
    for (m, n) in allowed_sizes() {
        for _ in 0..6 {
            let net = generator.net_sheet(m as usize, n as usize);
            let table = table_written(&net).expect("a good net sheet");
            let (shallow, layers) = settled_shallow(&net).expect("a good net sheet");
            assert_eq!(made_shallow(&table), Ok((shallow.clone(), layers)));
            assert_eq!(settled_shallow(&shallow), Ok((shallow.clone(), layers)));
            assert_eq!(table_written(&shallow), Ok(table));
            assert_eq!(settled(&shallow), settled(&net));
            // both use the same inputs, and each gate except the last, once
            let settled = settled(&net).expect("a good net sheet");
            assert_eq!(shallow.len(), settled.len());
            let [of_shallow, of_net, of_settled] =
                [&shallow, &net, &settled].map(|sheet| read_net_sheet(sheet).expect("a net").1);
            assert!(of_shallow.gates.len() <= of_net.gates.len());
            assert_eq!(of_shallow.layers(), layers);
            assert!(layers <= of_net.layers());
            assert!(layers <= of_settled.layers());
        }
    }
}

/// The shallow call and document 01's on the same sheet and equal buffers: they
/// refuse in the same way, and leave the same cells and marks.
macro_rules! assert_refused_alike {
    ($shallow:ident, $default:ident, $sheet:expr, $length:expr) => {
        let lent = || ([9; CELLS], [9; MARKS], [9; NET_SHEET]);
        let (mut cells, mut marks, mut out) = lent();
        let answer = $shallow($sheet, &mut cells, &mut marks, &mut out[..$length]);
        let (mut cells_due, mut marks_due, mut out_due) = lent();
        let due = $default(
            $sheet,
            &mut cells_due,
            &mut marks_due,
            &mut out_due[..$length],
        );
        assert_eq!(answer.map(|answer| answer.length), due);
        assert!(cells == cells_due && marks == marks_due);
        assert!(due.is_ok() || out == out_due);
    };
}

#[test]
fn damaged_sheets_are_refused_as_by_making_and_settling() {
    let seed = 1_026;
    println!("seed {seed}");
    let mut generator = Generator::new(seed);
    for _ in 0..300 {
        let (m, n) = generator.size();
        let net = generator.net_sheet(m, n);
        let kind = *generator.rng.pick(&TableKind::ALL);
        let table = generator.table_sheet(m, n, kind);
        let length = *generator.rng.pick(&[0, 60, 150, NET_SHEET]);
        for sheet in [&net, &table] {
            let damaged = generator.damaged(sheet);
            for sheet in [sheet, &damaged] {
                assert_refused_alike!(settle_shallow, settle, sheet, length);
                assert_refused_alike!(make_shallow, make, sheet, length);
            }
        }
    }
    for sheet in byte_damages(&generator.net_sheet(2, 4)) {
        assert_refused_alike!(settle_shallow, settle, &sheet, NET_SHEET);
    }
    for sheet in byte_damages(&generator.table_sheet(2, 3, TableKind::Random)) {
        assert_refused_alike!(make_shallow, make, &sheet, NET_SHEET);
    }
}
