//! Keeping a wiring, held against the second implementation: nets and tables of every allowed size, every table of two small wirings, damaged sheets of
//! both kinds, sheets of other headers, buffers of every length around each need and full of other bytes.

use crate::common::{around, due, full, got, sizes, Back};
use reference::damage::byte_damages;
use reference::generate::{Generator, TableKind};
use reference::net::Table;
use reference::sheet::{print_net_sheet, print_table_sheet, Header};
use sitgurp::{Family, Named, MOST_CELLS, MOST_NET_SHEET};

const SEED: u64 = 23;

/// What keeping answers: the sheet that was written, and the set of the gates that changed.
type Kept = (Vec<u8>, usize);

/// Both implementations on the same sheets and buffers: the answers and all lent bytes are equal.
fn same_keep(net: &[u8], table: &[u8], cells: usize, output: usize) -> Result<Kept, Back> {
    let mut ours = [full(cells), full(output)];
    let mut theirs = ours.clone();
    let [cells, output] = &mut ours;
    let answer = got(sitgurp::keep(net, table, cells, output));
    let answer = answer.map(|kept| (kept.length, kept.changed));
    let [cells, output] = &mut theirs;
    let expected = due(reference::keep(net, table, cells, output));
    let expected = expected.map(|kept| (kept.length, kept.changed as usize));
    let texts = [net, table].map(String::from_utf8_lossy);
    assert_eq!(answer, expected, "sheets {texts:?}");
    assert!(ours == theirs, "buffers differ, sheets {texts:?}");
    answer.map(|(length, changed)| (ours[1][..length].to_vec(), changed))
}

fn same(net: &[u8], table: &[u8]) -> Result<Kept, Back> {
    same_keep(net, table, MOST_CELLS, MOST_NET_SHEET)
}

/// A good net sheet and a table sheet under the same header.
fn sheets(generator: &mut Generator, m: usize, n: usize, kind: TableKind) -> (Vec<u8>, Vec<u8>) {
    let header = generator.header(m, n);
    let net = generator.net(m, n);
    let table = generator.table(m, n, kind);
    (
        print_net_sheet(&header, &net),
        print_table_sheet(&header, &table),
    )
}

/// What holds of an accepted answer: the table is the asked one, and keeping again changes nothing.
fn assert_kept(table: &[u8], (new, _): &Kept) {
    assert!(sitgurp::table_of(new).as_deref() == Ok(table));
    assert_eq!(same(new, table), Ok((new.clone(), 0)));
}

/// A net keeps its wiring for its own table; the settled net and the trees of a family are kept as they are.
#[test]
fn own_tables_of_every_size() {
    println!("seed {SEED}");
    let mut generator = Generator::new(SEED);
    for (m, n) in sizes() {
        for _ in 0..3 {
            let net = generator.net_sheet(m, n);
            let table = sitgurp::table_of(&net).expect("a good net sheet");
            assert_kept(&table, &same(&net, &table).expect("its own table"));
            let settled = sitgurp::settled(&net).expect("a good net sheet");
            assert_eq!(same(&settled, &table), Ok((settled.clone(), 0)));
            let family = Family::of(&table).expect("a good table sheet");
            let number = generator.rng.number() % family.size();
            let tree = family.tree(number).expect("a number below the count");
            assert_eq!(same(&tree, &table), Ok((tree.clone(), 0)));
        }
    }
}

#[test]
fn tables_of_every_kind_and_size() {
    let mut generator = Generator::new(SEED + 1);
    let (mut kept, mut refused, mut left_out) = (0, 0, 0);
    for (m, n) in sizes() {
        for kind in TableKind::ALL {
            let (net, table) = sheets(&mut generator, m, n, kind);
            match same(&net, &table) {
                Ok(answer) => {
                    assert_kept(&table, &answer);
                    kept += 1;
                }
                Err((number, place, named)) => {
                    assert_eq!((number, named), (23, Named::Neither));
                    assert!(place < n);
                    refused += 1;
                    left_out += usize::from(place == 0);
                }
            }
        }
    }
    println!("{kept} kept, {refused} refused, {left_out} of them leave out an input that matters");
    assert!(kept > 50 && refused - left_out > 50 && left_out > 50);
}

fn binary_sheet(n: usize, number: usize) -> Vec<u8> {
    let inks = (0..1 << n)
        .map(|index| (number >> index & 1) as u8)
        .collect();
    let names = (0..n).map(|input| vec![b'a' + input as u8]).collect();
    print_table_sheet(&Header { m: 2, n, names }, &Table { m: 2, n, inks })
}

/// Every table of three inputs with each wiring of all or of some of them and each order of sides, and tables of four.
#[test]
fn tables_of_two_levels() {
    let head = "levels inputs\n2 3\na b c\nleft right table\n";
    for gates in [
        "a b 0110\n1 c 0110\n",
        "b a 0001\nc 1 1000\n",
        "a c 0111\nb 1 0100\n",
        "c a 0000\n1 b 1111\n",
        "b c 1001\na 1 0110\n",
        "c b 0011\n1 a 0101\n",
        "a b 0110\n",
        "c a 0001\n",
        "b c 0000\n",
    ] {
        for number in 0..256 {
            same(
                (head.to_string() + gates).as_bytes(),
                &binary_sheet(3, number),
            )
            .ok();
        }
    }
    let head = "levels inputs\n2 4\na b c d\nleft right table\n";
    for gates in [
        "d c 0111\nb a 0001\n2 1 0110\n",
        "a c 0110\nd b 0110\n1 2 0110\n",
        "c b 0100\n1 a 0110\nd 2 0010\n",
        "a d 0001\n1 c 0111\n2 b 0001\n",
        "b d 0110\nc 1 0001\n",
        "d a 0110\n",
    ] {
        for number in (0..1 << 16).step_by(29) {
            same(
                (head.to_string() + gates).as_bytes(),
                &binary_sheet(4, number),
            )
            .ok();
        }
    }
}

#[test]
fn every_buffer_around_its_need() {
    let mut generator = Generator::new(SEED + 2);
    for (m, n) in [(2, 2), (2, 3), (3, 3), (2, 6), (9, 3), (2, 12)] {
        let lengths = match n {
            12 => |need| vec![need - 1, need],
            _ => around,
        };
        for kind in [TableKind::Sum, TableKind::Random] {
            let (net, table) = sheets(&mut generator, m, n, kind);
            for cells in lengths(m.pow(n as u32)) {
                for output in lengths(net.len()) {
                    same_keep(&net, &table, cells, output).ok();
                }
            }
        }
    }
}

// ---- refusals

#[test]
fn every_byte_damaged() {
    let mut generator = Generator::new(SEED + 3);
    for (m, n) in [(2, 2), (3, 2), (2, 3)] {
        let (net, table) = sheets(&mut generator, m, n, TableKind::Sum);
        for damaged in byte_damages(&net) {
            same(&damaged, &table).ok();
        }
        for damaged in byte_damages(&table) {
            same(&net, &damaged).ok();
        }
    }
}

/// The net sheet is judged first, then the table sheet, then 12.
#[test]
fn damaged_fields_and_lines() {
    let mut generator = Generator::new(SEED + 4);
    let (mut of_net, mut of_table) = (0, 0);
    for _ in 0..400 {
        let (m, n) = generator.size();
        let kind = *generator.rng.pick(&TableKind::ALL);
        let (net, table) = sheets(&mut generator, m, n, kind);
        let damaged_net = generator.damaged(&net);
        let damaged_table = generator.damaged(&table);
        for (net, table) in [
            (&damaged_net, &table),
            (&net, &damaged_table),
            (&damaged_net, &damaged_table),
        ] {
            if let Err((_, _, named)) = same(net, table) {
                of_net += usize::from(named == Named::Net);
                of_table += usize::from(named == Named::Table);
            }
        }
    }
    println!("{of_net} net sheets and {of_table} table sheets refused");
    assert!(of_net > 300 && of_table > 300);
}

/// Other names, the names in another order, another size, sheets in each other's place, and bytes that are no sheet.
#[test]
fn other_sheets() {
    let mut generator = Generator::new(SEED + 5);
    for (m, n) in sizes() {
        let header = generator.header(m, n);
        let net = print_net_sheet(&header, &generator.net(m, n));
        let table = generator.table(m, n, TableKind::Sum);
        let mut other = header.clone();
        other.names.rotate_left(1);
        let sheet = print_table_sheet(&header, &table);
        for unlike in [
            print_table_sheet(&other, &table),
            generator.table_sheet(m, n, TableKind::Sum),
        ] {
            for length in [0, MOST_CELLS] {
                let answer = same_keep(&net, &unlike, length, length);
                assert_eq!(answer, Err((12, 0, Named::Neither)));
            }
        }
        let (p, q) = generator.size();
        same(&net, &generator.table_sheet(p, q, TableKind::Sum)).expect_err("other names");
        same(&sheet, &net).expect_err("exchanged");
        for bytes in [&b""[..], b"\n", b" ", b"\0", b"\xff", b"levels inputs\n"] {
            same(&net, bytes).expect_err("no table sheet");
            same(bytes, &sheet).expect_err("no net sheet");
            same(bytes, bytes).expect_err("no sheets");
        }
    }
}
