//! Glyphs, held against the second implementation: nets of every allowed size, pictures of every shape up to 64 cells a side, every offset, what is
//! wrong with pictures and offsets, damaged net sheets, outputs of every length around the need and full of other bytes.

use crate::common::{around, due, full, got, sizes, Back};
use reference::damage::byte_damages;
use reference::generate::Generator;
use sitgurp::Named;

const SEED: u64 = 24;

/// A picture and the inputs' offsets.
#[derive(Clone, Debug)]
struct Given {
    width: usize,
    height: usize,
    picture: Vec<u8>,
    offsets: Vec<i8>,
}

impl Given {
    /// A good picture of this shape, and good offsets, for nets of m levels and n inputs.
    fn of(generator: &mut Generator, [m, n]: [usize; 2], [width, height]: [usize; 2]) -> Given {
        let picture = (0..width * height)
            .map(|_| generator.rng.level(m))
            .collect();
        let offsets = (0..2 * n)
            .map(|_| generator.rng.below(5) as i8 - 2)
            .collect();
        Given {
            width,
            height,
            picture,
            offsets,
        }
    }

    /// Both implementations on the same net and output: the answers and all lent bytes are equal. Answers the new picture.
    fn same(&self, net: &[u8], output: usize) -> Result<Vec<u8>, Back> {
        let (mut ours, mut theirs) = (full(output), full(output));
        let Given {
            width,
            height,
            picture,
            offsets,
        } = self;
        let answer = got(sitgurp::glyph(
            net, *width, *height, picture, offsets, &mut ours,
        ));
        let expected = due(reference::glyph(
            net,
            *width as u64,
            *height as u64,
            picture,
            offsets,
            &mut theirs,
        ));
        let text = String::from_utf8_lossy(net);
        assert_eq!(answer, expected, "sheet {text:?}, {self:?}");
        assert!(ours == theirs, "outputs differ, sheet {text:?}, {self:?}");
        answer.map(|length| ours[..length].to_vec())
    }
}

/// The most cells of a picture.
const MOST: usize = 64 * 64;

#[test]
fn nets_of_every_size() {
    println!("seed {SEED}");
    let mut generator = Generator::new(SEED);
    for (m, n) in sizes() {
        let net = generator.net_sheet(m, n);
        let settled = sitgurp::settled(&net).expect("a good net sheet");
        for shape in [[1, 1], [1, 2], [2, 1], [3, 3], [5, 4], [17, 6], [64, 64]] {
            let given = Given::of(&mut generator, [m, n], shape);
            let printed = given.same(&net, MOST).expect("good");
            assert_eq!(printed.len(), shape[0] * shape[1]);
            // nets that settle alike print alike
            assert_eq!(given.same(&settled, MOST), Ok(printed));
        }
    }
}

#[test]
fn every_shape() {
    let mut generator = Generator::new(SEED + 1);
    let net = generator.net_sheet(3, 2);
    for width in 1..=64 {
        for height in 1..=64 {
            // all of the narrow ones, and some of the others
            if width.min(height) < 4 || (width * 7 + height) % 29 == 0 {
                let given = Given::of(&mut generator, [3, 2], [width, height]);
                given.same(&net, MOST).expect("good");
            }
        }
    }
}

/// One input of two reads every cell around, the other the cell itself.
#[test]
fn every_offset() {
    let mut generator = Generator::new(SEED + 2);
    let net = b"levels inputs\n3 2\na b\nleft right table\na b 012120201\n";
    for shape in [[1, 1], [2, 3], [5, 5], [6, 4]] {
        for across in -2..=2 {
            for down in -2..=2 {
                let mut given = Given::of(&mut generator, [3, 2], shape);
                given.offsets = vec![across, down, 0, 0];
                given.same(net, MOST).expect("good");
                given.offsets = vec![0, 0, across, down];
                given.same(net, MOST).expect("good");
            }
        }
    }
}

#[test]
fn every_output_around_its_need() {
    let mut generator = Generator::new(SEED + 3);
    for (m, n) in [(2, 2), (3, 7), (2, 12)] {
        let net = generator.net_sheet(m, n);
        for shape in [[1, 1], [4, 3], [64, 64]] {
            let given = Given::of(&mut generator, [m, n], shape);
            for length in around(shape[0] * shape[1]) {
                given.same(&net, length).ok();
            }
        }
    }
}

// ---- refusals

/// 24 at 0, whatever the offsets and the output.
fn refused_with_24(given: &Given, net: &[u8]) {
    for output in [0, MOST] {
        let refusal = Err((24, 0, Named::Neither));
        assert_eq!(given.same(net, output), refusal);
        let mut other = given.clone();
        for offsets in [vec![], vec![3; 4], vec![0; 6]] {
            other.offsets = offsets;
            assert_eq!(other.same(net, output), refusal);
        }
    }
}

#[test]
fn sides_and_cell_counts() {
    let mut generator = Generator::new(SEED + 4);
    let net = generator.net_sheet(2, 2);
    let good = Given::of(&mut generator, [2, 2], [3, 2]);
    let odd = [
        0,
        1,
        2,
        3,
        63,
        64,
        65,
        66,
        128,
        1 << 32,
        1 << 63,
        usize::MAX,
    ];
    for width in odd {
        for height in odd {
            let product = width.wrapping_mul(height);
            for cells in [
                0,
                1,
                6,
                product,
                product.wrapping_sub(1),
                product.wrapping_add(1),
            ] {
                if cells > 10_000 {
                    continue;
                }
                let mut given = good.clone();
                (given.width, given.height) = (width, height);
                given.picture = vec![1; cells];
                let sides = (1..=64).contains(&width) && (1..=64).contains(&height);
                match sides && cells == product {
                    true => drop(given.same(&net, MOST).expect("good")),
                    false => refused_with_24(&given, &net),
                }
            }
        }
    }
}

#[test]
fn levels_of_a_picture() {
    let mut generator = Generator::new(SEED + 5);
    for m in 2..=9 {
        let net = generator.net_sheet(m, 2);
        let given = Given::of(&mut generator, [m, 2], [3, 3]);
        for cell in 0..9 {
            for level in [m, m + 1, 128, 255] {
                let mut wrong = given.clone();
                wrong.picture[cell] = level as u8;
                refused_with_24(&wrong, &net);
            }
        }
    }
}

#[test]
fn offsets_wrong() {
    let mut generator = Generator::new(SEED + 6);
    for (m, n) in sizes() {
        let net = generator.net_sheet(m, n);
        let given = Given::of(&mut generator, [m, n], [4, 4]);
        let refusal = Err((25, 0, Named::Neither));
        let mut wrong = given.clone();
        for length in [0, 1, n, 2 * n - 2, 2 * n - 1, 2 * n + 1, 2 * n + 2] {
            wrong.offsets = vec![0; length];
            let due = match length == 2 * n {
                true => given.same(&net, 0).map(drop),
                false => refusal,
            };
            assert_eq!(wrong.same(&net, 0).map(drop), due);
        }
        for place in 0..2 * n {
            for offset in [3, -3, 4, 64, 127, -128] {
                wrong.offsets = given.offsets.clone();
                wrong.offsets[place] = offset;
                assert_eq!(wrong.same(&net, MOST).map(drop), refusal);
                assert_eq!(wrong.same(&net, 15).map(drop), refusal);
            }
        }
    }
}

#[test]
fn damaged_net_sheets() {
    let mut generator = Generator::new(SEED + 7);
    for (m, n) in [(2, 2), (3, 3), (2, 5), (9, 2)] {
        let net = generator.net_sheet(m, n);
        let good = Given::of(&mut generator, [m, n], [3, 2]);
        let mut wrong = good.clone();
        wrong.picture.clear();
        for damaged in byte_damages(&net) {
            // the net sheet is judged first
            let printed = good.same(&damaged, 10).map(drop);
            let refused = wrong.same(&damaged, 10).map(drop);
            if printed.is_err_and(|refusal| refusal.2 == Named::Net) {
                assert_eq!(refused, printed);
            }
        }
    }
    for _ in 0..500 {
        let (m, n) = generator.size();
        let net = generator.net_sheet(m, n);
        let given = Given::of(&mut generator, [m, n], [5, 3]);
        given.same(&generator.damaged(&net), 20).ok();
        given.same(&generator.net_sheet(m, n), 20).expect("good");
        let (p, q) = generator.size();
        given.same(&generator.net_sheet(p, q), 20).ok();
    }
    let given = Given::of(&mut generator, [2, 2], [3, 2]);
    for sheet in [&b""[..], b"\n", b" ", b"\0", b"\xff", b"levels inputs\n"] {
        given.same(sheet, 10).expect_err("no net sheet");
    }
}
