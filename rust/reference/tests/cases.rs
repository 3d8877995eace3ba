//! The ten cases of document 01, "Proofs on squared paper".

use crate::common::*;
use reference::groups::classes;
use reference::net::Table;
use reference::{make_program, marking, multiplicity, settle_program};

/// Checks the names and the gate lines of a settled sheet, made in both ways: from a
/// net sheet by settling, from its table sheet by making.
fn assert_settles(m: usize, names: &str, gates: &str, expected: &str) {
    let sheet = net_sheet(m, names, gates);
    let expected = net_sheet(m, names, expected);
    assert_eq!(settled(&sheet).as_deref(), Ok(&expected[..]));
    assert_eq!(settle_program(&sheet), expected);
    let table = table_written(&sheet).expect("an accepted net sheet");
    assert_eq!(made(&table).as_deref(), Ok(&expected[..]));
}

fn assert_made(m: usize, names: &str, rule: impl Fn(&[usize]) -> usize, expected: &str) {
    let sheet = rule_sheet(m, names, rule);
    let expected = net_sheet(m, names, expected);
    assert_eq!(made(&sheet).as_deref(), Ok(&expected[..]));
    assert_eq!(make_program(&sheet), expected);
    assert_eq!(table_written(&expected), Ok(sheet));
    assert_eq!(settled(&expected), Ok(expected));
}

#[test]
fn case_1_a_single_gate_is_settled_already() {
    let sheet = lines("levels inputs/2 2/a b/left right table/a b 0001/");
    assert_eq!(settled(&sheet), Ok(sheet.clone()));
    assert_eq!(settle_program(&sheet), sheet);
}

#[test]
fn case_2_the_lowest_part_goes_left() {
    assert_settles(2, "a b c", "a b 0110/1 c 0110", "b c 0110/a 1 0110");
}

#[test]
fn case_3_classes_are_not_numbered_by_the_callers_digits() {
    assert_settles(2, "a b c", "b c 1001/a 1 1001", "b c 0110/a 1 0110");
}

/// "Case 4 becomes `a b 0000`."
#[test]
fn case_4_all_ink_0() {
    assert_made(2, "a b c", |_| 0, "a b 0000");
}

#[test]
fn case_5_two_of_three_have_no_tree() {
    let rule = |x: &[usize]| usize::from(x.iter().sum::<usize>() >= 2);
    let mut marks = [9; 2];
    assert_eq!(marking(2, 3, &inks_of(2, 3, rule), &mut marks), Ok(1));
    assert_eq!(marks, [0x28, 0x42]);
    assert_eq!(unpacked(&marks), [0, 2, 2, 0, 2, 0, 0, 1]);
    let sheet = rule_sheet(2, "a b c", rule);
    assert_eq!(made(&sheet), Err(of_neither(16, 7)));
    assert_eq!(make_program(&sheet), b"number place\n16 7\n");
}

#[test]
fn case_6_a_single_input_carries_its_level() {
    let rule = |x: &[usize]| usize::from(x.iter().filter(|&&level| level != 0).count() >= 2);
    assert_made(3, "a b c", rule, "b c 011122122/a 1 001011011");
}

#[test]
fn case_7_the_first_split_leads_nowhere() {
    let rule = |x: &[usize]| {
        let [a, b, c, d] = [x[0], x[1], x[2], x[3]];
        let e = if d == 0 { 0 } else { a };
        let most = e.max(b);
        usize::from((c == 0 && most >= 1) || (c == 1 && most == 2))
    };
    let cells = inks_of(3, 4, rule);
    assert_eq!(multiplicity(3, 4, &cells, 7), Ok(3));
    let mut marks = [9; 4];
    assert_eq!(marking(3, 4, &cells, &mut marks), Ok(2));
    let marks = unpacked(&marks);
    assert_eq!(marks[7], 1);
    assert_eq!([marks[3], marks[5], marks[6]], [0, 0, 0]);
    let gates = "a d 000011022/1 b 012112222/2 c 000100110";
    assert_made(3, "a b c d", rule, gates);
}

/// Figure 1 of document 003 as in the scanned text, all 81 cells of
/// it: rows are z3 z4 = 00, 01, 02, 10, ..., 22, columns are z1 z2 likewise.
const FIGURE_1: [&str; 9] = [
    "1 0 1 0 0 1 0 1 0", // z3 z4 = 00
    "1 1 2 1 1 2 1 1 1", // 01
    "0 2 0 2 2 0 2 0 2", // 02
    "0 2 0 2 2 0 2 0 2", // 10
    "0 2 0 2 2 0 2 0 2", // 11
    "0 2 0 2 2 0 2 0 2", // 12
    "1 1 2 1 1 2 1 1 1", // 20
    "1 0 1 0 0 1 0 1 0", // 21
    "1 0 1 0 0 1 0 1 0", // 22
];

/// The figure's own labels: g1 along its top, g2 down its left side.
const FIGURE_1_G1: [usize; 9] = [0, 1, 2, 1, 1, 2, 1, 0, 1];
const FIGURE_1_G2: [usize; 9] = [0, 1, 2, 2, 2, 2, 1, 0, 0];

fn figure_1(z: &[usize]) -> usize {
    let row: Vec<usize> = FIGURE_1[z[2] * 3 + z[3]]
        .split(' ')
        .map(|ink| ink.parse().expect("an ink"))
        .collect();
    row[z[0] * 3 + z[1]]
}

#[test]
fn case_8_figure_1() {
    let gates = "z1 z2 012112101/z3 z4 012222100/1 2 110012120";
    assert_made(3, "z1 z2 z3 z4", figure_1, gates);
    assert_settles(3, "z1 z2 z3 z4", gates, gates);
}

/// "For this example, ν = μ = 3." The figure's labels come in the order in which
/// document 01 numbers classes, so they are the classes.
#[test]
fn case_8_figure_1_has_three_columns_and_three_rows() {
    let inks = inks_of(3, 4, figure_1);
    assert_eq!(multiplicity(3, 4, &inks, 0b0011), Ok(3));
    assert_eq!(multiplicity(3, 4, &inks, 0b1100), Ok(3));
    let table = Table { m: 3, n: 4, inks };
    assert_eq!(classes(&table, 0b0011).of, FIGURE_1_G1);
    assert_eq!(classes(&table, 0b1100).of, FIGURE_1_G2);
}

#[test]
fn case_9_numbers_and_places() {
    let judged = [
        ("levels inputs/2 2/a b/left right table/a a 0001/", 8, 41),
        ("levels inputs/2 2/a b/left right table/1 a 0001/", 7, 39),
        ("levels inputs/1 2/a b/left right table/a b 0001/", 2, 14),
        ("levels inputs/2 1/a b/left right table/a b 0001/", 3, 16),
    ];
    for (text, number, place) in judged {
        let sheet = lines(text);
        assert_eq!(settled(&sheet), Err(of_net(number, place)), "{text}");
        let printed = format!("number place\n{number} {place}\n").into_bytes();
        assert_eq!(settle_program(&sheet), printed, "{text}");
    }
}

/// Returns a full net sheet of any size: a chain of gates along the list of inputs.
fn full_net_sheet(m: usize, n: usize) -> Vec<u8> {
    let names: Vec<String> = (0..n).map(|input| format!("x{input}")).collect();
    let digits: String = (0..m * m)
        .map(|place| ((place / m + place % m) % m).to_string())
        .collect();
    let gates: Vec<String> = (1..n)
        .map(|gate| match gate {
            1 => format!("x0 x1 {digits}"),
            _ => format!("{} x{gate} {digits}", gate - 1),
        })
        .collect();
    net_sheet(m, &names.join(" "), &gates.join("/"))
}

/// Returns a full table sheet of any size, with the same rule.
fn full_table_sheet(m: usize, n: usize) -> Vec<u8> {
    let names: Vec<String> = (0..n).map(|input| format!("x{input}")).collect();
    rule_sheet(m, &names.join(" "), |levels| {
        levels.iter().sum::<usize>() % m
    })
}

#[test]
fn case_10_the_largest_sizes_are_accepted() {
    let sizes = [(2, 11), (3, 7), (9, 3)];
    let come_in = [(2, 12), (4, 6), (5, 5), (7, 4), (8, 4)];
    for (m, n) in sizes.into_iter().chain(come_in) {
        let net = full_net_sheet(m, n);
        let table = full_table_sheet(m, n);
        assert_eq!(table_written(&net).as_ref(), Ok(&table), "{m} {n}");
        let settled = settled(&net).expect("accepted");
        assert_eq!(made(&table), Ok(settled), "{m} {n}");
    }
}

#[test]
fn case_10_the_next_sizes_are_refused() {
    for (m, n) in [(2, 13), (3, 8), (9, 4)] {
        assert_eq!(
            settled(&full_net_sheet(m, n)),
            Err(of_net(3, 16)),
            "{m} {n}"
        );
        assert_eq!(
            made(&full_table_sheet(m, n)),
            Err(of_table(3, 16)),
            "{m} {n}"
        );
    }
}

#[test]
fn case_10_no_bytes() {
    assert_eq!(settled(b""), Err(of_net(1, 0)));
    assert_eq!(made(b""), Err(of_table(1, 0)));
    assert_eq!(settle_program(b""), b"number place\n1 0\n");
    assert_eq!(make_program(b""), b"number place\n1 0\n");
}
