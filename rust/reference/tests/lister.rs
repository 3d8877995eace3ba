//! The gate lister.

use crate::common::*;
use reference::generate::Generator;
use reference::{allowed_sizes, Lister};

/// Returns whether the line is a part of the sheet itself and not a copy.
fn lies_at(sheet: &[u8], place: usize, line: &[u8]) -> bool {
    std::ptr::eq(&sheet[place..place + line.len()], line)
}

#[test]
fn every_gate_line_once_and_then_none_for_ever() {
    let sheet = net_sheet(2, "a b c", "b a 0110/c 1 0001");
    let mut lister = Lister::start(&sheet).expect("accepted");
    let first = lister.next().expect("a line");
    assert_eq!(first, b"b a 0110");
    assert!(lies_at(&sheet, 41, first));
    let second = lister.next().expect("a line");
    assert_eq!(second, b"c 1 0001");
    assert!(lies_at(&sheet, 50, second));
    for _ in 0..5 {
        assert_eq!(lister.next(), None);
    }
}

#[test]
fn the_lines_of_a_net_that_leaves_inputs_out() {
    let sheet = net_sheet(2, "a b c d", "b d 0110");
    let listed: Vec<&[u8]> = Lister::start(&sheet).expect("accepted").collect();
    assert_eq!(listed, [b"b d 0110"]);
}

#[test]
fn a_refused_sheet_gives_no_lister() {
    let sheet = net_sheet(2, "a b", "a a 0001");
    assert_eq!(Lister::start(&sheet).err(), Some(of_net(8, 41)));
    assert_eq!(Lister::start(b"").err(), Some(of_net(1, 0)));
    let unused = net_sheet(2, "a b c d", "a b 0001/c d 0001");
    assert_eq!(Lister::start(&unused).err(), Some(of_net(26, 61)));
    let table = rule_sheet(2, "a b", |_| 0);
    assert_eq!(Lister::start(&table).err(), Some(of_net(1, 21)));
}

#[test]
fn the_gate_lines_of_every_size() {
    let mut generator = Generator::new(81);
    for (m, n) in allowed_sizes() {
        let sheet = generator.net_sheet(m as usize, n as usize);
        let text = String::from_utf8(sheet.clone()).expect("a sheet is ASCII");
        let expected: Vec<&str> = text.lines().skip(4).collect();
        assert!((1..n).contains(&(expected.len() as u64)));
        let lister = Lister::start(&sheet).expect("accepted");
        let listed: Vec<&[u8]> = lister.collect();
        assert_eq!(
            listed,
            expected.iter().map(|l| l.as_bytes()).collect::<Vec<_>>()
        );
    }
}
