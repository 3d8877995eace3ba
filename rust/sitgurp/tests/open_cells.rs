//! Cells left open, held against the second implementation: every call that takes a table sheet or bare cells, at every size, on buffers of every length
//! around each need and full of other bytes, and every byte of such a sheet damaged.

use crate::common::{around, due, full, got, same_call, sizes, Back, Lengths, ENOUGH};
use reference::damage::byte_damages;
use reference::generate::{Generator, TableKind};
use reference::sheet::{print_net_sheet, print_table_sheet, read_table_sheet, Header};
use sitgurp::{Named, MOST_CELLS, MOST_NET_SHEET, MOST_TABLE_SHEET};

const SEED: u64 = 27;

fn length_of(answer: reference::Layered) -> sitgurp::Layered {
    let reference::Layered { length, layers } = answer;
    sitgurp::Layered { length, layers }
}

/// Both makers and both calls of a family, by both implementations, on equal buffers.
fn same_making(sheet: &[u8], lengths: Lengths) -> Result<usize, Back> {
    let made = same_call(sitgurp::make, reference::make, |l| l, sheet, lengths);
    let (proved, second) = (sitgurp::make_shallow, reference::make_shallow);
    let shallow = same_call(proved, second, length_of, sheet, lengths);
    assert_eq!(shallow.map(|shallow| shallow.length), made);
    let Lengths(cells, marks, output) = lengths;
    let mut ours = [full(cells), full(marks), full(output)];
    let mut theirs = ours.clone();
    let [cells, marks, output] = &mut ours;
    let [their_cells, their_marks, their_output] = &mut theirs;
    assert_eq!(
        got(sitgurp::family_count(sheet, cells, marks)),
        due(reference::family_count(sheet, their_cells, their_marks))
    );
    for number in [0, 1, u64::MAX] {
        assert_eq!(
            got(sitgurp::family_tree(sheet, number, cells, marks, output)),
            due(reference::family_tree(
                sheet,
                number,
                their_cells,
                their_marks,
                their_output
            ))
        );
    }
    assert!(ours == theirs, "buffers differ");
    made
}

fn same_check(net: &[u8], table: &[u8], length: usize) -> Result<Option<usize>, Back> {
    let (mut ours, mut theirs) = (full(length), full(length));
    let answer = got(sitgurp::check(net, table, &mut ours)).map(|verdict| match verdict {
        sitgurp::Verdict::Agree => None,
        sitgurp::Verdict::Differ(at) => Some(at),
    });
    let expected = due(reference::check(net, table, &mut theirs)).map(|verdict| match verdict {
        reference::Verdict::Agree => None,
        reference::Verdict::Differ(at) => Some(at as usize),
    });
    assert_eq!(answer, expected);
    assert!(ours == theirs, "the cells buffers differ");
    answer
}

fn same_keep(net: &[u8], table: &[u8], cells: usize, output: usize) -> Result<usize, Back> {
    let mut ours = [full(cells), full(output)];
    let mut theirs = ours.clone();
    let [cells, output] = &mut ours;
    let answer = got(sitgurp::keep(net, table, cells, output)).map(|kept| kept.length);
    let [cells, output] = &mut theirs;
    let expected = due(reference::keep(net, table, cells, output)).map(|kept| kept.length);
    assert_eq!(answer, expected);
    assert!(ours == theirs, "buffers differ");
    answer
}

fn same_tidy(sheet: &[u8], cells: usize, output: usize) -> Result<usize, Back> {
    let mut ours = [full(cells), full(output)];
    let mut theirs = ours.clone();
    let [cells, output] = &mut ours;
    let answer = got(sitgurp::tidy(sheet, cells, output));
    let [cells, output] = &mut theirs;
    assert_eq!(answer, due(reference::tidy(sheet, cells, output)));
    assert!(ours == theirs, "buffers differ");
    answer
}

/// Both open alike: a job, or the empty one beside a refusal.
fn same_opening(sheet: &[u8]) -> Option<Back> {
    let (mut ours, refusal) = sitgurp::Job::open(sheet);
    let answer = got(refusal.map_or(Ok(()), Err));
    let (mut theirs, refusal) = reference::Job::open(sheet);
    assert_eq!(answer, due(refusal.map_or(Ok(()), Err)));
    assert_eq!(ours.to_go(), theirs.to_go());
    assert_eq!(got(ours.step()), due(theirs.step()));
    assert_eq!(got(ours.mark(1)), due(theirs.mark(1)));
    answer.err()
}

fn same_bare(m: usize, n: usize, cells: &[u8], group: usize, marks: usize) -> Back {
    let (p, q) = (m as u64, n as u64);
    let answer = got(sitgurp::multiplicity(m, n, cells, group)).map(|count| count as u64);
    assert_eq!(
        answer,
        due(reference::multiplicity(p, q, cells, group as u64))
    );
    let (mut ours, mut theirs) = (full(marks), full(marks));
    let marked = got(sitgurp::marking(m, n, cells, &mut ours)).map(|mark| mark as u8);
    assert_eq!(marked, due(reference::marking(p, q, cells, &mut theirs)));
    assert!(ours == theirs, "the marks buffers differ");
    answer.expect_err("an open cell")
}

/// A net sheet and a table sheet with open cells under one header.
fn sheets(generator: &mut Generator, m: usize, n: usize, kind: TableKind) -> (Vec<u8>, Vec<u8>) {
    let header: Header = generator.header(m, n);
    let net = print_net_sheet(&header, &generator.net(m, n));
    let table = generator.table(m, n, kind);
    let open = generator.with_open_cells(table);
    (net, print_table_sheet(&header, &open))
}

#[test]
fn every_call_at_every_size() {
    println!("seed {SEED}");
    let mut generator = Generator::new(SEED);
    for (m, n) in sizes() {
        for kind in [TableKind::OfNet, TableKind::Random, TableKind::Constant] {
            let (net, table) = sheets(&mut generator, m, n, kind);
            let (_, read) = read_table_sheet(&table).expect("a good table sheet");
            let place = read.first_open().expect("an open cell");
            let refused = (27, place, Named::Table);
            assert_eq!(same_making(&table, ENOUGH), Err(refused));
            assert_eq!(same_making(&table, Lengths(0, 0, 0)), Err(refused));
            assert_eq!(same_opening(&table), Some(refused));
            for length in [0, MOST_CELLS] {
                assert_eq!(same_keep(&net, &table, length, length), Err(refused));
            }
            same_check(&net, &table, MOST_CELLS).expect("a check passes over open cells");
            let length = same_tidy(&table, MOST_CELLS, MOST_TABLE_SHEET);
            assert_eq!(length, Ok(table.len()));
            let loose = generator.loosened(&table);
            assert_eq!(sitgurp::tidied(&loose), Ok(table));
            let back = same_bare(m, n, &read.inks, 1, (1 << n) / 4);
            assert_eq!(back, (27, place, Named::Neither));
        }
    }
}

/// 10 over all cells, then 27, then 11 and 14.
#[test]
fn bare_cells() {
    let mut generator = Generator::new(SEED + 1);
    let (mut open, mut above) = (0, 0);
    for _ in 0..600 {
        let (m, n) = *generator
            .rng
            .pick(&[(2, 2), (2, 3), (3, 2), (4, 2), (9, 2), (3, 3)]);
        let table = generator.table(m, n, TableKind::Random);
        let mut cells = generator.with_open_cells(table).inks;
        if generator.rng.below(2) == 0 {
            let at = generator.rng.below(cells.len());
            cells[at] = (m + 1 + generator.rng.below(255 - m)) as u8;
        }
        let group = generator.rng.below(1 << n);
        let marks = *generator.rng.pick(&[0, (1 << n) / 4, 99]);
        match same_bare(m, n, &cells, group, marks).0 {
            27 => open += 1,
            number => {
                assert_eq!(number, 10);
                above += 1;
            }
        }
    }
    println!("{open} open, {above} above");
    assert!(open > 200 && above > 200);
}

/// Checks of tables in which some cells are open and others differ, and buffers around each need.
#[test]
fn checks_pass_over_open_cells() {
    let mut generator = Generator::new(SEED + 2);
    let (mut agree, mut differ) = (0, 0);
    for round in 0..400 {
        let (m, n) = *generator
            .rng
            .pick(&[(2, 2), (2, 3), (3, 2), (4, 2), (2, 5), (9, 3)]);
        let header = generator.header(m, n);
        let net = generator.net(m, n);
        let mut table = net.table();
        for _ in 0..round % 3 {
            let at = generator.rng.below(table.inks.len());
            table.inks[at] = generator.rng.level(m);
        }
        let open = generator.with_open_cells(table);
        let (net, table) = (
            print_net_sheet(&header, &net),
            print_table_sheet(&header, &open),
        );
        match same_check(&net, &table, MOST_CELLS).expect("good sheets") {
            None => agree += 1,
            Some(index) => {
                assert!(!open.is_open(index));
                differ += 1;
            }
        }
        for length in around(open.inks.len()) {
            same_check(&net, &table, length).ok();
            same_tidy(&table, length, table.len() - 1).expect_err("the output is short");
            same_keep(&net, &table, length, MOST_NET_SHEET).expect_err("open cells");
        }
    }
    println!("{agree} agree, {differ} differ");
    assert!(agree > 100 && differ > 50);
}

#[test]
fn every_byte_damaged() {
    let mut generator = Generator::new(SEED + 3);
    for (m, n) in [(2, 2), (3, 2), (2, 3)] {
        let (net, table) = sheets(&mut generator, m, n, TableKind::OfNet);
        for damaged in byte_damages(&table) {
            same_making(&damaged, ENOUGH).ok();
            same_opening(&damaged);
            same_check(&net, &damaged, MOST_CELLS).ok();
            same_keep(&net, &damaged, 0, 0).expect_err("no buffers");
            same_tidy(&damaged, MOST_CELLS, MOST_TABLE_SHEET).ok();
        }
    }
}
