//! A glyph: the library compared with plain Rust that evaluates the net gate by gate, cell by cell.

use crate::timing::{least, ratio, report};
use reference::generate::{Generator, TableKind};
use reference::net::{Net, Wire};
use reference::sheet::print_net_sheet;
use std::hint::black_box;

const SIDE: usize = 64;
const NETS: usize = 8;

/// A net with its references as numbers: input i is i, gate k is n + k.
struct Flat {
    m: usize,
    n: usize,
    gates: Vec<(usize, usize, Vec<u8>)>,
}

fn flat(m: usize, n: usize, net: &Net) -> Flat {
    let number = |wire: &Wire| match *wire {
        Wire::Input(i) => i,
        Wire::Gate(k) => n + k - 1,
    };
    let gates = net.gates.iter();
    let gates = gates.map(|gate| (number(&gate.left), number(&gate.right), gate.digits.clone()));
    Flat {
        m,
        n,
        gates: gates.collect(),
    }
}

/// Computes each cell by itself: the levels of the inputs, then every gate.
fn plain(net: &Flat, picture: &[u8], offsets: &[i8], output: &mut [u8]) {
    let inside = |at: usize, by: i8| {
        let moved = at as isize + isize::from(by);
        (0..SIDE as isize)
            .contains(&moved)
            .then_some(moved as usize)
    };
    let mut values = vec![0u8; net.n + net.gates.len()];
    for y in 0..SIDE {
        for x in 0..SIDE {
            for (i, offset) in offsets.chunks(2).enumerate() {
                values[i] = match (inside(x, offset[0]), inside(y, offset[1])) {
                    (Some(x), Some(y)) => picture[y * SIDE + x],
                    _ => 0,
                };
            }
            for (k, (left, right, table)) in net.gates.iter().enumerate() {
                let row = usize::from(values[*left]) * net.m;
                values[net.n + k] = table[row + usize::from(values[*right])];
            }
            output[y * SIDE + x] = values[net.n + net.gates.len() - 1];
        }
    }
}

/// Returns the ratio for one size. The library also reads the net sheet and judges the picture; plain Rust has its net ready.
fn printing(m: usize, n: usize) -> f64 {
    let mut generator = Generator::new(20);
    let inputs: Vec<_> = (0..NETS)
        .map(|_| {
            let net = generator.net_of_all_inputs(m, n);
            let sheet = print_net_sheet(&generator.header(m, n), &net);
            let levels = generator.table(m, n, TableKind::Random).inks;
            let picture: Vec<u8> = levels.into_iter().cycle().take(SIDE * SIDE).collect();
            // every offset from -2 to 2, across and down
            let offsets: Vec<i8> = (0..2 * n).map(|k| (k * 3 % 5) as i8 - 2).collect();
            (flat(m, n, &net), sheet, picture, offsets)
        })
        .collect();
    let (mut output, mut other) = (vec![0; SIDE * SIDE], vec![0; SIDE * SIDE]);
    for (net, sheet, picture, offsets) in &inputs {
        sitgurp::glyph(sheet, SIDE, SIDE, picture, offsets, &mut output).expect("a good sheet");
        plain(net, picture, offsets, &mut other);
        assert_eq!(output, other, "both print alike");
    }
    let proved = least(&inputs, |(_, sheet, picture, offsets)| {
        let sheet = black_box(sheet);
        black_box(sitgurp::glyph(
            sheet,
            SIDE,
            SIDE,
            picture,
            offsets,
            &mut output,
        ))
        .ok();
    });
    let gates = least(&inputs, |(net, _, picture, offsets)| {
        plain(black_box(net), picture, offsets, &mut other);
    });
    ratio(proved, gates)
}

pub fn by_size(sizes: &[(usize, usize)]) {
    let rows = sizes
        .iter()
        .map(|&(m, n)| (format!("{m} {n}"), vec![printing(m, n)]));
    report(
        "a glyph of 64 by 64 cells, proved / plain, gate by gate; at 2 11 it is to be a third at most",
        "m n",
        &["glyph"],
        rows,
    );
}
