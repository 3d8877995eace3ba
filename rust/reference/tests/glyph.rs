//! Whole glyphs: a net's value at every cell of a picture.

use crate::common::*;
use reference::generate::Generator;
use reference::sheet::read_net_sheet;
use reference::{allowed_sizes, glyph, settle, Refusal};

/// Returns a picture from its rows, a digit for each cell.
fn cells_of(rows: &[&str]) -> Vec<u8> {
    rows.concat().bytes().map(|digit| digit - b'0').collect()
}

/// Returns the new picture, row by row.
fn printed(
    net: &[u8],
    width: u64,
    height: u64,
    picture: &[u8],
    offsets: &[i8],
) -> Result<Vec<u8>, Refusal> {
    let mut out = [7; 4_100];
    let length = glyph(net, width, height, picture, offsets, &mut out)?;
    assert_eq!(out[length..], [7; 4_100][length..]);
    Ok(out[..length].to_vec())
}

fn assert_prints(net: &[u8], old: &[&str], offsets: &[i8], new: &[&str]) {
    let (width, height) = (old[0].len() as u64, old.len() as u64);
    let printed = printed(net, width, height, &cells_of(old), offsets);
    assert_eq!(printed, Ok(cells_of(new)), "{offsets:?}");
}

/// Nets whose value is the level of their first input: the picture shifted.
#[test]
fn offsets_by_hand() {
    let first = net_sheet(3, "a b", "a b 000111222");
    let old = ["0120", "2001", "1212"];
    assert_prints(&first, &old, &[0, 0, 2, 2], &old);
    // One cell to the right of each is read: the picture moves left.
    assert_prints(&first, &old, &[1, 0, 0, 0], &["1200", "0010", "2120"]);
    assert_prints(&first, &old, &[-1, 0, 0, 0], &["0012", "0200", "0121"]);
    assert_prints(&first, &old, &[0, 1, 0, 0], &["2001", "1212", "0000"]);
    assert_prints(&first, &old, &[0, -1, 0, 0], &["0000", "0120", "2001"]);
    assert_prints(&first, &old, &[2, -2, 0, 0], &["0000", "0000", "2000"]);
    assert_prints(&first, &old, &[-2, 2, 0, 0], &["0012", "0000", "0000"]);
    // Offsets farther than the picture reaches.
    assert_prints(&first, &["1", "2"], &[1, 0, 0, 0], &["0", "0"]);
    assert_prints(&first, &["12"], &[0, -1, 0, 0], &["00"]);
}

/// The larger of a cell and its right neighbour, and of a cell and the one below.
#[test]
fn two_cells_by_hand() {
    let larger = net_sheet(3, "a b", "a b 012112222");
    let old = ["0120", "2001"];
    assert_prints(&larger, &old, &[0, 0, 1, 0], &["1220", "2011"]);
    assert_prints(&larger, &old, &[0, 1, 0, 0], &["2121", "2001"]);
    // A 0 outside the picture is not 0 after the net.
    let turned = net_sheet(3, "a b", "a b 210210210");
    assert_prints(&turned, &["01"], &[0, 0, -1, 0], &["22"]);
    assert_prints(&turned, &["01"], &[0, 0, 2, 2], &["22"]);
    // The new picture is never read instead of the old one.
    let sum = net_sheet(2, "a b", "a b 0110");
    assert_prints(&sum, &["1111"], &[0, 0, -1, 0], &["1000"]);
    assert_prints(&sum, &["1111"], &[0, 0, 1, 0], &["0001"]);
}

/// Returns the net's inks, from the text of its table sheet.
fn inks_written(net: &[u8]) -> Vec<u8> {
    let table = table_written(net).expect("a good net sheet");
    let text = String::from_utf8(table).expect("ASCII");
    let rows = text.lines().skip(3);
    rows.map(|row| row.as_bytes()[row.len() - 1] - b'0')
        .collect()
}

/// Computes every cell by the net's table, with a border of zeros around the picture.
fn by_table(net: &[u8], size: [usize; 2], picture: &[u8], offsets: &[i8]) -> Vec<u8> {
    let (header, _) = read_net_sheet(net).expect("a good net sheet");
    let inks = inks_written(net);
    let [width, height] = size;
    let mut bordered = vec![vec![0; width + 4]; height + 4];
    for (row, cells) in bordered[2..].iter_mut().zip(picture.chunks(width)) {
        row[2..2 + width].copy_from_slice(cells);
    }
    let mut new = Vec::new();
    for y in 0..height {
        for x in 0..width {
            let mut index = 0;
            for pair in offsets.chunks(2) {
                let column = (x + 2).wrapping_add_signed(pair[0].into());
                let row = (y + 2).wrapping_add_signed(pair[1].into());
                index = index * header.m + usize::from(bordered[row][column]);
            }
            new.push(inks[index]);
        }
    }
    new
}

#[test]
fn glyphs_of_every_size_of_net() {
    let seed = 2_425;
    println!("seed {seed}");
    let mut generator = Generator::new(seed);
    for (m, n) in allowed_sizes() {
        let (m, n) = (m as usize, n as usize);
        let net = generator.net_sheet(m, n);
        for round in 0..4 {
            let most = if round == 0 { 64 } else { 7 };
            let [width, height] = [(); 2].map(|_| match round {
                1 => 1 + generator.rng.below(2),
                _ => 1 + generator.rng.below(most),
            });
            let picture: Vec<u8> = (0..width * height)
                .map(|_| generator.rng.level(m))
                .collect();
            let offsets: Vec<i8> = (0..2 * n)
                .map(|_| generator.rng.below(5) as i8 - 2)
                .collect();
            let answer = printed(&net, width as u64, height as u64, &picture, &offsets);
            assert_eq!(
                answer,
                Ok(by_table(&net, [width, height], &picture, &offsets))
            );
        }
    }
}

/// "Two nets that settle alike must print the same glyph from the same picture and
/// offsets."
#[test]
fn nets_that_settle_alike_print_alike() {
    let mut generator = Generator::new(2_426);
    for _ in 0..100 {
        let n = 2 + generator.rng.below(4);
        let net = generator.net_sheet(2, n);
        let (mut cells, mut marks, mut out) = ([7; CELLS], [7; MARKS], [7; NET_SHEET]);
        let length = settle(&net, &mut cells, &mut marks, &mut out).expect("a good net sheet");
        let picture: Vec<u8> = (0..35).map(|_| generator.rng.level(2)).collect();
        let offsets: Vec<i8> = (0..2 * n)
            .map(|_| generator.rng.below(5) as i8 - 2)
            .collect();
        let one = printed(&net, 5, 7, &picture, &offsets);
        let other = printed(&out[..length], 5, 7, &picture, &offsets);
        assert!(one.is_ok());
        assert_eq!(one, other);
    }
}

#[test]
fn the_largest_and_the_smallest_picture() {
    let net = net_sheet(2, "a b", "a b 0110");
    let picture: Vec<u8> = (0..64 * 64).map(|cell| (cell % 3 % 2) as u8).collect();
    for offsets in [[0, 0, 0, 0], [2, 2, -2, -2], [-2, 1, 0, -1]] {
        let due = by_table(&net, [64, 64], &picture, &offsets);
        assert_eq!(printed(&net, 64, 64, &picture, &offsets), Ok(due));
    }
    assert_eq!(printed(&net, 1, 1, &[1], &[0, 0, 1, 1]), Ok(vec![1]));
    assert_eq!(printed(&net, 64, 1, &[1; 64], &[0; 4]), Ok(vec![0; 64]));
    assert_eq!(printed(&net, 1, 64, &[1; 64], &[0; 4]), Ok(vec![0; 64]));
}

// ---- refusals

const OFFSETS: [i8; 4] = [0, 1, -2, 2];

#[test]
fn refusal_24_sides_and_cells() {
    let net = net_sheet(2, "a b", "a b 0110");
    let huge = u64::MAX;
    for (width, height, cells) in [
        (0, 0, 0),
        (0, 1, 0),
        (1, 0, 0),
        (0, 64, 0),
        (65, 1, 65),
        (1, 65, 65),
        (65, 64, 4_160),
        (64, 65, 4_160),
        (2, 2, 0),
        (2, 2, 3),
        (2, 2, 5),
        (64, 64, 4_095),
        (64, 64, 4_097),
        // products that wrap around to a small number
        (1 << 32, 1 << 32, 0),
        (1 << 63, 2, 0),
        (huge, huge, 1),
        (huge, 1, 1),
        ((1 << 32) + 1, 1, 1),
    ] {
        // 24 comes before 25, whatever the offsets, and before 15.
        for offsets in [&OFFSETS[..], &[], &[3; 4]] {
            let mut out = [9; 100];
            let answer = glyph(&net, width, height, &vec![0; cells], offsets, &mut out);
            assert_eq!(answer, Err(of_neither(24, 0)), "{width} {height} {cells}");
            assert_eq!(out, [9; 100]);
            let answer = glyph(&net, width, height, &vec![0; cells], offsets, &mut []);
            assert_eq!(answer, Err(of_neither(24, 0)));
        }
    }
}

/// "A picture's level m is 24."
#[test]
fn refusal_24_levels() {
    for m in 2..=9 {
        let digits = "0".repeat(m * m);
        let net = net_sheet(m, "a b", &format!("a b {digits}"));
        for place in 0..6 {
            for level in [m as u8, m as u8 + 1, 255] {
                let mut picture = [m as u8 - 1; 6];
                assert_eq!(printed(&net, 3, 2, &picture, &OFFSETS), Ok(vec![0; 6]));
                picture[place] = level;
                let answer = printed(&net, 3, 2, &picture, &OFFSETS);
                assert_eq!(answer, Err(of_neither(24, 0)));
                assert_eq!(printed(&net, 3, 2, &picture, &[]), Err(of_neither(24, 0)));
            }
        }
    }
}

#[test]
fn refusal_25_offsets() {
    let net = net_sheet(2, "a b", "a b 0110");
    let wrong: [&[i8]; 10] = [
        &[],
        &[0],
        &[0; 2],
        &[0; 3],
        &[0; 5],
        &[0; 6],
        &[3, 0, 0, 0],
        &[0, -3, 0, 0],
        &[0, 0, 127, 0],
        &[2, 2, 2, -128],
    ];
    for offsets in wrong {
        for length in [0, 3, 100] {
            let mut out = vec![9; length];
            let answer = glyph(&net, 2, 2, &[0; 4], offsets, &mut out);
            assert_eq!(answer, Err(of_neither(25, 0)), "{offsets:?}");
            assert_eq!(out, vec![9; length]);
        }
    }
    for across in -2..=2 {
        for down in -2..=2 {
            let offsets = [across, down, down, across];
            assert!(printed(&net, 2, 2, &[0, 1, 1, 1], &offsets).is_ok());
        }
    }
}

#[test]
fn the_net_sheet_is_judged_first() {
    let bad = net_sheet(2, "a b", "a a 0110");
    for (width, picture) in [(2, &[0, 0][..]), (0, &[]), (2, &[9, 9])] {
        for offsets in [&OFFSETS[..], &[]] {
            for sheet in [&b""[..], &table_sheet(2, "a b", &[0; 4]), &bad] {
                let due = table_written(sheet).expect_err("no net sheet");
                let mut out = [9; 2];
                let answer = glyph(sheet, width, 1, picture, offsets, &mut out);
                assert_eq!((answer, out), (Err(due), [9; 2]));
            }
        }
    }
}
