//! Shallow settling and making and the shallower of two, held against the second implementation: every allowed size, tables with and
//! without trees, damaged sheets, buffers of every length around each need and full of other bytes.

use crate::common::{around_each_need, due, got, same_call, sizes, Back, Lengths, ENOUGH};
use reference::damage::byte_damages;
use reference::generate::{Generator, TableKind};
use reference::net::Table;
use reference::sheet::{print_table_sheet, read_net_sheet, Header};
use sitgurp::{shallower, Layered, MOST_CELLS, MOST_MARKS, MOST_NET_SHEET};

const SEED: u64 = 2_048;

fn in_shape(answer: reference::Layered) -> Layered {
    let reference::Layered { length, layers } = answer;
    Layered { length, layers }
}

fn same_settle(sheet: &[u8], lengths: Lengths) -> Result<Layered, Back> {
    let (proved, second) = (sitgurp::settle_shallow, reference::settle_shallow);
    same_call(proved, second, in_shape, sheet, lengths)
}

fn same_make(sheet: &[u8], lengths: Lengths) -> Result<Layered, Back> {
    let (proved, second) = (sitgurp::make_shallow, reference::make_shallow);
    same_call(proved, second, in_shape, sheet, lengths)
}

/// Both hand back the same part of memory.
fn same_shallower(first: &[u8], second: &[u8]) {
    let (ours, theirs) = (
        shallower(first, second),
        reference::shallower(first, second),
    );
    assert!(
        is(ours, theirs),
        "{:?}",
        [first, second].map(String::from_utf8_lossy)
    );
}

fn is(part: &[u8], sheet: &[u8]) -> bool {
    part.as_ptr() == sheet.as_ptr() && part.len() == sheet.len()
}

fn table_sheet(table: &Table) -> Vec<u8> {
    let (m, n) = (table.m, table.n);
    let names = (0..n).map(|input| vec![b'a' + input as u8]).collect();
    print_table_sheet(&Header { m, n, names }, table)
}

fn layers_of(sheet: &[u8]) -> usize {
    read_net_sheet(sheet).expect("a net sheet").1.layers()
}

#[test]
fn every_size_and_kind_of_table() {
    println!("seed {SEED}");
    let mut generator = Generator::new(SEED);
    let mut spared = 0;
    for (m, n) in sizes() {
        let net = generator.net_sheet(m, n);
        same_settle(&net, ENOUGH).expect("a good net sheet settles");
        for kind in TableKind::ALL {
            let table = generator.table_sheet(m, n, kind);
            match same_make(&table, ENOUGH) {
                Ok(Layered { layers, .. }) => {
                    let settled = sitgurp::made(&table).expect("there is a tree");
                    spared += usize::from(layers < layers_of(&settled));
                }
                Err((number, ..)) => assert_eq!(number, 16),
            }
        }
    }
    println!("{spared} tables have a tree with fewer layers than the settled net");
    assert!(spared > 30);
}

#[test]
fn tables_of_two_levels() {
    for (n, step) in [(2, 1), (3, 1), (4, 11)] {
        for number in (0..1usize << (1 << n)).step_by(step) {
            let inks = (0..1 << n).map(|index| (number >> index & 1) as u8);
            let inks = inks.collect();
            same_make(&table_sheet(&Table { m: 2, n, inks }), ENOUGH).ok();
        }
    }
}

#[test]
fn every_buffer_around_its_need() {
    let mut generator = Generator::new(SEED + 1);
    for (m, n) in [(2, 2), (2, 4), (3, 3), (4, 4), (2, 6), (9, 3), (2, 12)] {
        let net = generator.net_sheet(m, n);
        let tables = [TableKind::OfNet, TableKind::Sum, TableKind::Random]
            .map(|kind| generator.table_sheet(m, n, kind));
        let length = same_settle(&net, ENOUGH)
            .expect("a good net sheet settles")
            .length;
        around_each_need(m, n, length, |lengths| {
            same_settle(&net, lengths).ok();
            for table in &tables {
                same_make(table, lengths).ok();
            }
        });
    }
}

#[test]
fn every_byte_damaged() {
    let mut generator = Generator::new(SEED + 2);
    for (m, n) in [(2, 2), (3, 2), (2, 4), (9, 2), (2, 7)] {
        let net = generator.net_sheet(m, n);
        let other = generator.net_sheet(2, 4);
        for damaged in byte_damages(&net) {
            same_settle(&damaged, ENOUGH).ok();
            same_shallower(&damaged, &net);
            same_shallower(&other, &damaged);
        }
    }
    for (m, n) in [(2, 2), (3, 2), (2, 3)] {
        let table = generator.table_sheet(m, n, TableKind::OfNet);
        for damaged in byte_damages(&table) {
            same_make(&damaged, ENOUGH).ok();
        }
    }
}

#[test]
fn damaged_fields_and_lines() {
    let mut generator = Generator::new(SEED + 3);
    for round in 0..1_000 {
        let (m, n) = generator.size();
        let net = generator.net_sheet(m, n);
        let damaged = generator.damaged(&net);
        same_settle(&damaged, ENOUGH).ok();
        same_shallower(&net, &damaged);
        same_shallower(&damaged, &net);
        if round % 10 == 0 {
            let table = generator.table_sheet(m, n, TableKind::OfNet);
            same_make(&generator.damaged(&table), ENOUGH).ok();
            same_shallower(&damaged, &table);
        }
    }
}

/// The lent buffers always suffice, and a refusal is the call's own.
#[test]
fn with_buffers_of_its_own() {
    let mut generator = Generator::new(SEED + 4);
    for _ in 0..40 {
        let (m, n) = generator.size();
        let net = generator.net_sheet(m, n);
        let (sheet, layers) = sitgurp::settled_shallow(&net).expect("a good net sheet");
        assert_eq!(layers_of(&sheet), layers);
        let table = sitgurp::table_of(&net).expect("a good net sheet");
        assert_eq!(sitgurp::made_shallow(&table), Ok((sheet.clone(), layers)));
        assert_eq!(sitgurp::table_of(&sheet), Ok(table));
        // the default reads the same in both
        assert_eq!(sitgurp::settled(&sheet), sitgurp::settled(&net));
        // no net with this table is shallower
        assert!(is(shallower(&sheet, &net), &sheet));
        let damaged = generator.damaged(&net);
        let refusal = |answer: Result<(Vec<u8>, usize), _>| got(answer).err();
        let settled = due(reference::settle(
            &damaged,
            &mut [0; MOST_CELLS],
            &mut [0; MOST_MARKS],
            &mut [0; MOST_NET_SHEET],
        ));
        assert_eq!(refusal(sitgurp::settled_shallow(&damaged)), settled.err());
        let random = generator.table_sheet(m, n, TableKind::Random);
        assert_eq!(
            refusal(sitgurp::made_shallow(&random)),
            got(sitgurp::made(&random)).err()
        );
    }
}

#[test]
fn a_group_is_shallow_where_the_whole_has_room_to_spare() {
    let table = Table::of(2, 8, |x| {
        (x[0] ^ x[1] ^ x[2] ^ x[3]) | (x[4] & (x[5] ^ (x[6] & x[7])))
    });
    let (sheet, layers) = sitgurp::made_shallow(&table_sheet(&table)).expect("a tree");
    let due =
        "levels inputs\n2 8\na b c d e f g h\nleft right table\na b 0110\nc d 0110\n1 2 0110\n\
               g h 0001\nf 4 0110\ne 5 0001\n3 6 0111\n";
    assert_eq!(String::from_utf8(sheet), Ok(due.to_string()));
    assert_eq!(layers, 4);
}

#[test]
fn the_shallower_of_generated_sheets() {
    let mut generator = Generator::new(SEED + 5);
    let (mut firsts, mut seconds, mut neither) = (0, 0, 0);
    for _ in 0..3_000 {
        let mut sheet = || {
            let (m, n) = generator.size();
            let net = generator.net_sheet(m, n);
            match generator.rng.below(4) {
                0 => generator.damaged(&net),
                _ => net,
            }
        };
        let (first, second) = (sheet(), sheet());
        same_shallower(&first, &second);
        let part = shallower(&first, &second);
        firsts += usize::from(is(part, &first));
        seconds += usize::from(is(part, &second));
        neither += usize::from(is(part, &first[..0]));
    }
    println!("{firsts} firsts, {seconds} seconds, {neither} unreadable pairs");
    assert!(firsts > 1_000 && seconds > 800 && neither > 100);
}

#[test]
fn the_first_when_level() {
    let mut generator = Generator::new(SEED + 6);
    for (m, n) in sizes() {
        let (one, other) = (generator.net_sheet(m, n), generator.net_sheet(m, n));
        let again = one.clone();
        assert!(is(shallower(&one, &again), &one));
        assert!(is(shallower(&one, &one), &one));
        same_shallower(&one, &other);
        let table = generator.table_sheet(m, n, TableKind::Constant);
        assert!(is(shallower(&one, &table), &one));
        assert!(is(shallower(&table, &one), &one));
        assert!(is(shallower(&table, &table), &table[..0]));
    }
}

#[test]
fn bytes_that_are_no_sheet() {
    let noise = [
        &b""[..],
        b"\n",
        b" ",
        b"\0",
        b"\xff",
        b"levels",
        b"levels inputs",
        b"levels inputs\n",
    ];
    for sheet in noise {
        same_settle(sheet, ENOUGH).ok();
        same_make(sheet, ENOUGH).ok();
        for other in noise {
            let part = shallower(sheet, other);
            assert!(is(part, &sheet[..0]));
        }
    }
}
