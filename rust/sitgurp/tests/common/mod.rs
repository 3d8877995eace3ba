//! What the tests share: answers of both implementations in one shape, and buffers full of other bytes.
#![allow(dead_code)]

use reference::refusal::{Refusal as Expected, Sheet};
use sitgurp::{Named, Refusal, MOST_CELLS, MOST_MARKS, MOST_NET_SHEET};
use std::fmt::Debug;

/// A refusal's number, place and the sheet it names.
pub type Back = (usize, usize, Named);

pub fn due<T>(answer: Result<T, Expected>) -> Result<T, Back> {
    answer.map_err(|refusal| {
        let named = match refusal.sheet {
            Sheet::Net => Named::Net,
            Sheet::Table => Named::Table,
            Sheet::Arrivals => Named::Arrivals,
            Sheet::Neither => Named::Neither,
        };
        (usize::from(refusal.number), refusal.place as usize, named)
    })
}

pub fn got<T>(answer: Result<T, Refusal>) -> Result<T, Back> {
    answer.map_err(|refusal| (refusal.number, refusal.place, refusal.named))
}

/// A buffer that holds other bytes than any that a call writes in order.
pub fn full(length: usize) -> Vec<u8> {
    (0..length).map(|k| (k % 251) as u8 ^ 0x5a).collect()
}

/// The lengths of the three buffers that settling and making are lent.
#[derive(Clone, Copy, Debug)]
pub struct Lengths(pub usize, pub usize, pub usize);

pub const ENOUGH: Lengths = Lengths(MOST_CELLS, MOST_MARKS, MOST_NET_SHEET);

type Call<T> = fn(&[u8], &mut [u8], &mut [u8], &mut [u8]) -> T;

/// Both implementations on the same sheet and buffers: the answers, once in one shape, and all lent bytes are equal.
pub fn same_call<T: Debug + PartialEq, S>(
    proved: Call<Result<T, Refusal>>,
    second: Call<Result<S, Expected>>,
    in_shape: impl FnOnce(S) -> T,
    sheet: &[u8],
    Lengths(cells, marks, output): Lengths,
) -> Result<T, Back> {
    let mut ours = [full(cells), full(marks), full(output)];
    let mut theirs = ours.clone();
    let [cells, marks, output] = &mut ours;
    let answer = got(proved(sheet, cells, marks, output));
    let [cells, marks, output] = &mut theirs;
    let expected = due(second(sheet, cells, marks, output)).map(in_shape);
    let text = String::from_utf8_lossy(sheet);
    assert_eq!(answer, expected, "sheet {text:?}");
    assert!(ours == theirs, "buffers differ, sheet {text:?}");
    answer
}

/// Lengths around a need, from nothing to past it.
pub fn around(need: usize) -> Vec<usize> {
    let mut lengths = vec![
        0,
        1,
        need / 2,
        need.saturating_sub(1),
        need,
        need + 1,
        need + 37,
    ];
    lengths.dedup();
    lengths
}

pub fn sizes() -> Vec<(usize, usize)> {
    reference::allowed_sizes()
        .into_iter()
        .map(|(m, n)| (m as usize, n as usize))
        .collect()
}

/// Calls with buffers of every length around each need of a sheet of m levels and n inputs; fewer at the largest size, which takes long.
pub fn around_each_need(m: usize, n: usize, output: usize, mut call: impl FnMut(Lengths)) {
    let lengths = match n {
        12 => |need| vec![need - 1, need],
        _ => around,
    };
    for cells in lengths(m.pow(n as u32)) {
        for marks in lengths((1 << n) / 4) {
            for output in lengths(output) {
                call(Lengths(cells, marks, output));
            }
        }
    }
}
