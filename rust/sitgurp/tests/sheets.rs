//! Settling, making, checking, table writing and the lister, held against the second implementation: every allowed size, every table of four inputs with
//! two levels, tables with and without trees, nets that leave inputs out, damaged sheets, buffers of every length around each need and full of other bytes.

use crate::common::{around, around_each_need, due, full, got, same_call, sizes, Lengths, ENOUGH};
use reference::damage::{byte_damages, Damage};
use reference::generate::{Generator, TableKind};
use reference::net::Table;
use reference::sheet::{print_net_sheet, print_table_sheet, Header};
use sitgurp::MOST_CELLS;

const SEED: u64 = 65_536;

fn same_settle(sheet: &[u8], lengths: Lengths) -> Result<usize, crate::common::Back> {
    same_call(
        sitgurp::settle,
        reference::settle,
        |length| length,
        sheet,
        lengths,
    )
}

fn same_make(sheet: &[u8], lengths: Lengths) -> Result<usize, crate::common::Back> {
    same_call(
        sitgurp::make,
        reference::make,
        |length| length,
        sheet,
        lengths,
    )
}

fn same_check(net: &[u8], table: &[u8], length: usize) {
    let (mut ours, mut theirs) = (full(length), full(length));
    let answer = got(sitgurp::check(net, table, &mut ours)).map(|verdict| match verdict {
        sitgurp::Verdict::Agree => None,
        sitgurp::Verdict::Differ(at) => Some(at),
    });
    let expected = due(reference::check(net, table, &mut theirs)).map(|verdict| match verdict {
        reference::Verdict::Agree => None,
        reference::Verdict::Differ(at) => Some(at as usize),
    });
    assert_eq!(answer, expected);
    assert!(ours == theirs, "the cells buffers differ");
}

fn same_write(sheet: &[u8], length: usize) {
    let (mut ours, mut theirs) = (full(length), full(length));
    let answer = got(sitgurp::write_table(sheet, &mut ours));
    assert_eq!(answer, due(reference::write_table(sheet, &mut theirs)));
    assert!(ours == theirs, "the outputs differ");
}

fn same_lines(sheet: &[u8]) {
    let ours = got(sitgurp::Lister::start(sheet));
    let theirs = due(reference::lister::Lister::start(sheet));
    match (ours, theirs) {
        (Ok(mut ours), Ok(mut theirs)) => {
            for _ in 0..14 {
                assert_eq!(ours.next(), theirs.next());
            }
        }
        (ours, theirs) => assert_eq!(ours.err(), theirs.err()),
    }
}

#[test]
fn every_size_and_kind_of_table() {
    println!("seed {SEED}");
    let mut generator = Generator::new(SEED);
    for (m, n) in sizes() {
        let net = generator.net_sheet(m, n);
        same_settle(&net, ENOUGH).expect("a good net sheet settles");
        same_lines(&net);
        for kind in TableKind::ALL {
            let table = generator.table_sheet(m, n, kind);
            let made = same_make(&table, ENOUGH);
            assert!(made.is_ok() || made.unwrap_err().0 == 16);
        }
    }
}

/// All 65,536: what is made, and what has no tree.
#[test]
fn every_table_of_four_inputs() {
    let names = (0..4).map(|input| vec![b'a' + input]).collect();
    let header = Header { m: 2, n: 4, names };
    let mut made = 0;
    for number in 0..1_u32 << 16 {
        let inks = (0..16).map(|index| (number >> index & 1) as u8).collect();
        let table = Table { m: 2, n: 4, inks };
        let sheet = print_table_sheet(&header, &table);
        match same_make(&sheet, Lengths(16, 4, 110)) {
            Ok(_) => made += 1,
            Err(refusal) => assert_eq!(refusal.0, 16),
        }
    }
    assert_eq!(made, 2_680);
}

/// Nets that leave inputs out, through every call that reads a net sheet alone or beside a table sheet.
#[test]
fn nets_that_leave_inputs_out() {
    let mut generator = Generator::new(SEED + 6);
    for (m, n) in sizes() {
        for _ in 0..3 {
            let header = generator.header(m, n);
            let net = print_net_sheet(&header, &generator.net_of_some_inputs(m, n));
            let length = same_settle(&net, ENOUGH).expect("a good net sheet");
            same_settle(&net, Lengths(m.pow(n as u32), (1 << n) / 4, length - 1)).expect_err("15");
            same_lines(&net);
            same_write(&net, sitgurp::MOST_TABLE_SHEET);
            let table = sitgurp::table_of(&net).expect("a good net sheet");
            same_check(&net, &table, MOST_CELLS);
            assert_eq!(sitgurp::made(&table), sitgurp::settled(&net));
        }
    }
}

/// Gates that are never used, lines too few and lines too many.
#[test]
fn lines_taken_and_added() {
    let mut generator = Generator::new(SEED + 7);
    let (mut unused, mut good) = (0, 0);
    for (m, n) in sizes() {
        for damage in [
            Damage::DropLastLine,
            Damage::AddGate,
            Damage::OtherReference,
        ] {
            for _ in 0..4 {
                let mut sheet = generator.net_sheet(m, n);
                for _ in 0..2 {
                    sheet = generator.damage(&sheet, damage);
                    let answer = same_settle(&sheet, ENOUGH);
                    same_lines(&sheet);
                    same_write(&sheet, 60_000);
                    same_check(&sheet, b"", 0);
                    unused += usize::from(answer.is_err_and(|refusal| refusal.0 == 26));
                    good += usize::from(answer.is_ok());
                }
            }
        }
    }
    println!("{unused} with unused gates, {good} good");
    assert!(unused > 50 && good > 100);
}

#[test]
fn every_buffer_around_its_need() {
    let mut generator = Generator::new(SEED + 1);
    for (m, n) in [(2, 2), (2, 3), (3, 3), (4, 3), (2, 6), (9, 3), (2, 12)] {
        let net = generator.net_sheet(m, n);
        let tables =
            [TableKind::OfNet, TableKind::Random].map(|kind| generator.table_sheet(m, n, kind));
        let length = same_settle(&net, ENOUGH).expect("a good net sheet settles");
        around_each_need(m, n, length, |lengths| {
            same_settle(&net, lengths).ok();
            for table in &tables {
                same_make(table, lengths).ok();
            }
        });
    }
}

#[test]
fn every_byte_damaged() {
    let mut generator = Generator::new(SEED + 2);
    for (m, n) in [(2, 2), (3, 2), (2, 3), (9, 2), (2, 12)] {
        let net = generator.net_sheet(m, n);
        for damaged in byte_damages(&net) {
            same_settle(&damaged, ENOUGH).ok();
            same_lines(&damaged);
        }
    }
    for (m, n) in [(2, 2), (3, 2), (2, 3)] {
        let table = generator.table_sheet(m, n, TableKind::OfNet);
        for damaged in byte_damages(&table) {
            same_make(&damaged, ENOUGH).ok();
        }
    }
}

#[test]
fn damaged_fields_and_lines() {
    let mut generator = Generator::new(SEED + 3);
    for round in 0..1_500 {
        let (m, n) = generator.size();
        let net = generator.net_sheet(m, n);
        let damaged = generator.damaged(&net);
        same_settle(&damaged, ENOUGH).ok();
        same_lines(&damaged);
        same_write(&damaged, 60_000);
        if round % 10 == 0 {
            let table = generator.table_sheet(m, n, TableKind::OfNet);
            let damaged = generator.damaged(&table);
            same_make(&damaged, ENOUGH).ok();
            same_check(&net, &damaged, MOST_CELLS);
            same_check(&generator.damaged(&net), &damaged, MOST_CELLS);
        }
    }
}

#[test]
fn checks_of_every_size() {
    let mut generator = Generator::new(SEED + 4);
    for (m, n) in sizes() {
        let net = generator.net_sheet(m, n);
        let table = sitgurp::table_of(&net).expect("a good net sheet has a table sheet");
        let cells = m.pow(n as u32);
        for length in around(cells) {
            same_check(&net, &table, length);
        }
        let mut verdict = [0; MOST_CELLS];
        assert_eq!(
            sitgurp::check(&net, &table, &mut verdict),
            Ok(sitgurp::Verdict::Agree)
        );
        // one ink changed, at the first, the last and a middle cell
        for index in [0, cells / 2, cells - 1] {
            let mut other = table.clone();
            let end = other.len() - 2 - (cells - 1 - index) * (2 * n + 2);
            other[end] = if other[end] == b'0' { b'1' } else { b'0' };
            same_check(&net, &other, MOST_CELLS);
            assert_eq!(
                sitgurp::check(&net, &other, &mut verdict),
                Ok(sitgurp::Verdict::Differ(index))
            );
        }
        // another header
        let other = generator.table_sheet(m, n, TableKind::OfNet);
        same_check(&net, &other, MOST_CELLS);
        same_check(&net, &other, 0);
        let (p, q) = generator.size();
        same_check(
            &net,
            &generator.table_sheet(p, q, TableKind::Constant),
            MOST_CELLS,
        );
    }
}

#[test]
fn tables_written_at_every_size() {
    let mut generator = Generator::new(SEED + 5);
    for (m, n) in sizes() {
        let net = generator.net_sheet(m, n);
        let need = sitgurp::table_of(&net)
            .expect("a good net sheet has a table sheet")
            .len();
        for length in around(need) {
            same_write(&net, length);
        }
    }
}

#[test]
fn bytes_that_are_no_sheet() {
    for sheet in [
        &b""[..],
        b"\n",
        b" ",
        b"\0",
        b"\xff",
        b"levels",
        b"levels inputs",
        b"levels inputs\n",
    ] {
        same_settle(sheet, ENOUGH).ok();
        same_make(sheet, ENOUGH).ok();
        same_check(sheet, sheet, 10);
        same_write(sheet, 10);
        same_lines(sheet);
    }
}
