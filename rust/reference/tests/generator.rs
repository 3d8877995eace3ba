//! The seeded generator: good sheets are accepted, damaged ones are judged.

use crate::common::*;
use reference::damage::{byte_damages, Damage};
use reference::generate::{Generator, TableKind};
use reference::net::Table;
use reference::sheet::{print_net_sheet, print_table_sheet, read_net_sheet, read_table_sheet};
use reference::{allowed_sizes, Refusal};
use std::collections::HashMap;

/// All sizes, and no other, as the limits give them.
#[test]
fn the_allowed_sizes() {
    let most_inputs = [
        (2, 12),
        (3, 7),
        (4, 6),
        (5, 5),
        (6, 4),
        (7, 4),
        (8, 4),
        (9, 3),
    ];
    let mut expected = Vec::new();
    for (m, most) in most_inputs {
        expected.extend((2..=most).map(|n| (m, n)));
    }
    assert_eq!(allowed_sizes(), expected);
}

#[test]
fn good_sheets_are_accepted_at_every_size() {
    for seed in 1..=3 {
        println!("seed {seed}");
        let mut generator = Generator::new(seed);
        for (m, n) in allowed_sizes() {
            let (m, n) = (m as usize, n as usize);
            let net = generator.net_sheet(m, n);
            let (header, gates) = read_net_sheet(&net).expect("a good net sheet");
            assert_eq!((header.m, header.n), (m, n));
            assert_eq!(print_net_sheet(&header, &gates), net);
            for kind in TableKind::ALL {
                let sheet = generator.table_sheet(m, n, kind);
                let (header, table) = read_table_sheet(&sheet).expect("a good table sheet");
                assert_eq!((header.m, header.n), (m, n));
                assert_eq!(print_table_sheet(&header, &table), sheet);
            }
        }
    }
}

/// Some cells are left open, and some sheets have only open cells.
#[test]
fn sheets_with_open_cells() {
    let mut generator = Generator::new(94);
    let (mut few, mut all) = (0, 0);
    for (m, n) in allowed_sizes() {
        for _ in 0..6 {
            let sheet = generator.open_table_sheet(m as usize, n as usize, TableKind::Sum);
            let (header, table) = read_table_sheet(&sheet).expect("a good table sheet");
            assert_eq!(print_table_sheet(&header, &table), sheet);
            let open = (0..table.inks.len()).filter(|&index| table.is_open(index));
            let open = open.count();
            assert!(open > 0);
            few += usize::from(open < 4);
            all += usize::from(open == table.inks.len());
        }
    }
    assert!(few > 50 && all > 0);
}

#[test]
fn the_same_seed_gives_the_same_sheets() {
    let sheets = |seed| {
        let mut generator = Generator::new(seed);
        let (m, n) = generator.size();
        let net = generator.net_sheet(m, n);
        let damaged = generator.damaged(&net);
        (net, damaged)
    };
    assert_eq!(sheets(5), sheets(5));
    assert_ne!(sheets(5), sheets(6));
}

/// Tables that have a tree by construction are made; those that by chance have none are refused.
#[test]
fn tables_are_made_or_refused_as_their_kind_tells() {
    let seed = 91;
    println!("seed {seed}");
    let mut generator = Generator::new(seed);
    for (m, n) in allowed_sizes() {
        for kind in TableKind::ALL {
            let result = made(&generator.table_sheet(m as usize, n as usize, kind));
            match kind {
                TableKind::Random if n >= 4 => {
                    assert_eq!(result.expect_err("no tree").number, 16, "{m} {n}")
                }
                TableKind::Random
                | TableKind::OneInkChanged
                | TableKind::FewCells
                | TableKind::ThreeMatter => {}
                // a table of two inputs has a gate
                TableKind::TwoMatter => assert!(result.is_ok(), "{m} {n}"),
                _ => assert!(result.is_ok(), "{m} {n} {kind:?}"),
            }
        }
    }
}

/// Returns how many inputs of a table matter.
fn count_mattering(table: &Table) -> u32 {
    mattering(table.m, table.n, &table.inks).count_ones()
}

#[test]
fn few_cells_near_the_end_and_three_inputs_that_matter() {
    let mut generator = Generator::new(92);
    for (m, n) in allowed_sizes() {
        let (m, n) = (m as usize, n as usize);
        let inks = generator.table(m, n, TableKind::FewCells).inks;
        let zeros = inks.iter().take_while(|&&ink| ink == 0).count();
        let others = inks.iter().filter(|&&ink| ink != 0).count();
        assert!((1..=4).contains(&others));
        assert!(zeros + inks.len().div_ceil(8) >= inks.len());
        let table = generator.table(m, n, TableKind::ThreeMatter);
        assert!(count_mattering(&table) <= 3);
        let table = generator.table(m, n, TableKind::TwoMatter);
        assert!(count_mattering(&table) <= 2);
        let table = generator.table(m, n, TableKind::OfSomeInputs);
        assert!(n == 2 || count_mattering(&table) < n as u32);
    }
    let table = generator.table(2, 11, TableKind::ThreeMatter);
    assert!(count_mattering(&table) > 0);
}

/// Nets with every number of used inputs occur, and tables in which none, one and
/// two inputs matter.
#[test]
fn nets_that_leave_inputs_out() {
    let seed = 93;
    println!("seed {seed}");
    let mut generator = Generator::new(seed);
    let mut used = [0; 8];
    let mut matter = [0; 3];
    for _ in 0..500 {
        let net = generator.net(2, 7);
        assert_eq!(net.used_inputs().len(), net.gates.len() + 1);
        used[net.used_inputs().len()] += 1;
        let table = generator.table(2, 7, TableKind::TwoMatter);
        matter[count_mattering(&table) as usize] += 1;
    }
    println!("inputs used: {used:?}, that matter: {matter:?}");
    assert!(used[2..].iter().all(|&count| count > 10));
    assert!(matter.iter().all(|&count| count > 50));
}

/// Returns the end of the run of bytes that starts at the refused place.
fn end_of_field(sheet: &[u8], place: usize) -> usize {
    let rest = &sheet[place..];
    let ends = |&byte: &u8| byte == b' ' || byte == b'\n';
    place + rest.iter().position(ends).unwrap_or(rest.len())
}

/// "Sheets are judged from the front": what follows the refused field and
/// the byte after it does not matter.
fn assert_judged_from_the_front(
    sheet: &[u8],
    refusal: Refusal,
    judge: impl Fn(&[u8]) -> Result<(), Refusal>,
) {
    let place = refusal.place as usize;
    assert!(place <= sheet.len());
    let end = end_of_field(sheet, place);
    if end < sheet.len() {
        let front = &sheet[..=end];
        assert_eq!(judge(front), Err(refusal));
        assert_eq!(judge(&[front, b"\n\xff 12345 x\n"].concat()), Err(refusal));
    }
}

fn judge_net(sheet: &[u8]) -> Result<(), Refusal> {
    let (header, net) = read_net_sheet(sheet)?;
    // An accepted sheet is the only print of what was read from it.
    assert_eq!(print_net_sheet(&header, &net), sheet);
    Ok(())
}

fn judge_table(sheet: &[u8]) -> Result<(), Refusal> {
    let (header, table) = read_table_sheet(sheet)?;
    assert_eq!(print_table_sheet(&header, &table), sheet);
    Ok(())
}

/// Judges a damaged sheet as a net and as a table, and counts the answers.
fn judge_both(sheet: &[u8], answers: &mut HashMap<u8, usize>) {
    for judge in [judge_net, judge_table] {
        let number = match judge(sheet) {
            Ok(()) => 0,
            Err(refusal) => {
                assert_judged_from_the_front(sheet, refusal, judge);
                refusal.number
            }
        };
        *answers.entry(number).or_default() += 1;
    }
}

/// Every number of a sheet occurs, and so does acceptance.
fn assert_all_answers(answers: &HashMap<u8, usize>) {
    println!("answers: {answers:?}");
    for number in (0..=8).chain([26]) {
        assert!(answers.contains_key(&number), "{number}");
    }
}

#[test]
fn damaged_sheets_are_judged() {
    let mut answers = HashMap::new();
    for seed in 100..104 {
        println!("seed {seed}");
        let mut generator = Generator::new(seed);
        for (m, n) in allowed_sizes() {
            let (m, n) = (m as usize, n as usize);
            let net = generator.net_sheet(m, n);
            let table = generator.table_sheet(m, n, TableKind::OfNet);
            for damage in Damage::ALL {
                for sheet in [&net, &table] {
                    let once = generator.damage(sheet, damage);
                    judge_both(&once, &mut answers);
                    judge_both(&generator.damaged(&once), &mut answers);
                }
            }
        }
    }
    assert_all_answers(&answers);
}

#[test]
fn every_byte_of_a_sheet_damaged() {
    let mut generator = Generator::new(110);
    let mut answers = HashMap::new();
    for (m, n) in [(2, 4), (3, 3), (2, 12), (9, 2)] {
        let net = generator.net_sheet(m, n);
        byte_damages(&net).for_each(|sheet| judge_both(&sheet, &mut answers));
    }
    for (m, n) in [(2, 4), (3, 2)] {
        let table = generator.table_sheet(m, n, TableKind::Random);
        byte_damages(&table).for_each(|sheet| judge_both(&sheet, &mut answers));
    }
    assert_all_answers(&answers);
}

/// Damaged sheets through the calls themselves, with buffers.
#[test]
fn damaged_sheets_go_through_the_calls() {
    let seed = 120;
    println!("seed {seed}");
    let mut generator = Generator::new(seed);
    for _ in 0..400 {
        let (m, n) = generator.size();
        let net = generator.net_sheet(m, n);
        let damaged = generator.damaged(&net);
        assert_eq!(settled(&damaged).map(drop), judge_net(&damaged));
        let table = generator.table_sheet(m, n, TableKind::OfNet);
        let damaged = generator.damaged(&table);
        let result = made(&damaged).map(drop);
        match judge_table(&damaged) {
            Err(refusal) => assert_eq!(result, Err(refusal)),
            Ok(()) => {
                assert!(result.is_ok() || result.is_err_and(|r| [16, 27].contains(&r.number)))
            }
        }
    }
}
