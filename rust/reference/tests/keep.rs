//! Keeping a wiring: which tables a wiring computes for some filling is decided
//! without the library's groups and marks.

use crate::common::wirings::*;
use crate::common::*;
use reference::generate::{Generator, TableKind};
use reference::sheet::{print_net_sheet, print_table_sheet};
use reference::{allowed_sizes, check, keep, Verdict};

/// A wiring as the text of its gate lines: for each gate its two references.
type Lines = Vec<[String; 2]>;

/// Returns the wiring from a net sheet's text.
fn lines_of(sheet: &[u8]) -> Lines {
    let text = std::str::from_utf8(sheet).expect("ASCII");
    let references = |line: &str| {
        let mut fields = line.split(' ').map(str::to_string);
        [(); 2].map(|_| fields.next().expect("a reference"))
    };
    text.lines().skip(4).map(references).collect()
}

/// Returns the table fields from a net sheet's text.
fn tables_in(sheet: &[u8]) -> Vec<String> {
    let text = std::str::from_utf8(sheet).expect("ASCII");
    let last = |line: &str| line.split(' ').next_back().expect("a field").to_string();
    text.lines().skip(4).map(last).collect()
}

/// Checks what holds for every accepted answer: the wiring is the caller's, the table is
/// the requested one, the set is that of the changed table fields, and keeping again
/// changes nothing.
fn assert_kept(net: &[u8], table: &[u8], new: &[u8], changed: u64) {
    assert_eq!(lines_of(new), lines_of(net));
    assert_eq!(table_written(new), Ok(table.to_vec()));
    assert_eq!(check(new, table, &mut [7; CELLS]), Ok(Verdict::Agree));
    let (old_tables, new_tables) = (tables_in(net), tables_in(new));
    for (gate, (old, new)) in (1..).zip(old_tables.iter().zip(&new_tables)) {
        assert_eq!(changed >> gate & 1 == 1, old != new);
    }
    assert_eq!((changed & 1, changed >> (old_tables.len() + 1)), (0, 0));
    assert_eq!(kept(new, table), Ok((new.to_vec(), 0)));
}

fn assert_keeps(names: &str, old: &str, inks: &[u8], new: &str, changed: u64) {
    let (net, table) = (net_sheet(2, names, old), table_sheet(2, names, inks));
    let new = net_sheet(2, names, new);
    assert_eq!(kept(&net, &table), Ok((new.clone(), changed)), "{old}");
    assert_kept(&net, &table, &new, changed);
}

#[test]
fn wirings_by_hand() {
    let sum = inks_of(2, 3, |x| x.iter().sum::<usize>() % 2);
    let names = "a b c";
    assert_keeps(names, "a b 0110/1 c 0110", &sum, "a b 0110/1 c 0110", 0);
    // Classes are numbered by the table, not by the caller's digits.
    assert_keeps(names, "b c 1001/a 1 1001", &sum, "b c 0110/a 1 0110", 6);
    assert_keeps(names, "b c 0110/a 1 1001", &sum, "b c 0110/a 1 0110", 4);
    assert_keeps(names, "b c 1001/a 1 0110", &sum, "b c 0110/a 1 0110", 2);
    // The sides and the order of the lines stay; the first-listed member changes slowest.
    assert_keeps(names, "c b 0000/1 a 0000", &sum, "c b 0110/1 a 0110", 6);
    let below = inks_of(2, 2, |x| usize::from(x[0] < x[1]));
    assert_keeps("a b", "a b 0000", &below, "a b 0100", 2);
    assert_keeps("a b", "b a 0000", &below, "b a 0010", 2);
    // A digit that no assignment reaches becomes 0.
    let zeros = [0; 8];
    assert_keeps(names, "a b 1111/1 c 1111", &zeros, "a b 0000/1 c 0000", 6);
    let last = inks_of(2, 3, |x| x[2]);
    assert_keeps(names, "a b 0110/1 c 0101", &last, "a b 0000/1 c 0100", 6);
    // Gates in a different order from the settled net's.
    let four = inks_of(2, 4, |x| (x[0] & x[1]) ^ (x[2] | x[3]));
    let old = "d c 0111/b a 0001/2 1 0110";
    assert_keeps("a b c d", old, &four, old, 0);
    let old = "d c 1000/b a 0001/2 1 1001";
    let new = "d c 0111/b a 0001/2 1 0110";
    assert_keeps("a b c d", old, &four, new, 10);
}

#[test]
fn refusal_23_at_the_first_gate_by_number() {
    let most = |x: &[usize]| usize::from(x.iter().sum::<usize>() >= 2);
    let table = rule_sheet(2, "a b c", most);
    for gates in [
        "a b 0001/1 c 0001",
        "c a 0001/1 b 0001",
        "b c 0001/a 1 0001",
    ] {
        let net = net_sheet(2, "a b c", gates);
        assert_eq!(kept(&net, &table), Err(of_neither(23, 1)));
    }
    // {a, b} and {c, d} have too many classes, {e, f} does not.
    let rule = |x: &[usize]| most(&[x[0], x[1], x[4] ^ x[5]]) ^ most(&[x[2], x[3], x[4] ^ x[5]]);
    let table = rule_sheet(2, "a b c d e f", rule);
    for (gates, gate) in [
        ("a b 0001/c d 0001/e f 0001/1 2 0001/3 4 0001", 1),
        ("e f 0001/a b 0001/c d 0001/1 2 0001/3 4 0001", 2),
        ("e f 0001/d c 0001/a b 0001/1 2 0001/3 4 0001", 2),
        ("e f 0001/1 a 0001/2 b 0001/3 c 0001/4 d 0001", 2),
    ] {
        let net = net_sheet(2, "a b c d e f", gates);
        assert_eq!(kept(&net, &table), Err(of_neither(23, gate)), "{gates}");
    }
}

/// Wirings that leave out inputs that do not matter; the inputs that they have may not
/// matter either.
#[test]
fn wirings_that_leave_inputs_out() {
    let names = "a b c d";
    let pair = inks_of(2, 4, |x| x[1] & x[3]);
    assert_keeps(names, "b d 0110", &pair, "b d 0001", 2);
    assert_keeps(names, "d b 0001", &pair, "d b 0001", 0);
    // a is read and does not matter: it has one class
    assert_keeps(names, "d b 1001/a 1 0110", &pair, "d b 0001/a 1 0101", 6);
    assert_keeps(names, "a d 0000/1 b 0000", &pair, "a d 0101/1 b 0001", 6);
    assert_keeps(
        names,
        "a c 0110/b d 0110/1 2 0110",
        &pair,
        "a c 0000/b d 0001/1 2 0100",
        14,
    );
    let zeros = [0; 16];
    assert_keeps(names, "c d 0110", &zeros, "c d 0000", 2);
    let single = inks_of(2, 4, |x| x[2]);
    assert_keeps(names, "d c 0110", &single, "d c 0101", 2);
}

/// "A kept wiring that leaves out an input that matters is refused with 23 at place
/// 0, before its gates are judged."
#[test]
fn refusal_23_at_0_before_the_gates() {
    let most = |x: &[usize]| usize::from(x.iter().sum::<usize>() >= 2);
    // the first of these gates would have too many classes
    let table = rule_sheet(2, "a b c d", |x| most(&x[..3]));
    for (gates, place) in [
        ("a b 0001", 0),
        ("a b 0001/1 d 0001", 0),
        ("d c 0001/1 b 0001", 0),
        ("a b 0001/1 c 0001", 1),
        ("d a 0001/1 b 0001/2 c 0001", 2),
    ] {
        let net = net_sheet(2, "a b c d", gates);
        let (mut cells, mut out) = ([9; CELLS], [9; NET_SHEET]);
        let answer = keep(&net, &table, &mut cells, &mut out);
        assert_eq!(answer, Err(of_neither(23, place)), "{gates}");
        // it leaves the cells written
        assert_eq!(cells[..16], inks_of(2, 4, |x| most(&x[..3])));
        assert_eq!((cells[16], out), (9, [9; NET_SHEET]));
        // 12 and 13 come first
        let short = keep(&net, &table, &mut [9; 15], &mut out);
        assert_eq!(short, Err(of_neither(13, 16)));
        let other = net_sheet(2, "d c b a", "a b 0001");
        assert_eq!(kept(&other, &table), Err(of_neither(12, 0)));
    }
}

// ---- two levels: every filling of every wiring

/// Returns the wirings of a group of inputs, with every choice of sides.
fn all_wirings(group: usize) -> Vec<Wiring> {
    if group.count_ones() == 1 {
        return vec![Wiring::Leaf(group.trailing_zeros() as usize)];
    }
    let mut all = Vec::new();
    for left in (1..group).filter(|left| left & group == *left) {
        for one in all_wirings(left) {
            for other in all_wirings(group - left) {
                all.push(Wiring::node(one.clone(), other));
            }
        }
    }
    all
}

/// Returns the gate lines of a wiring, every table field the same. Left's gates come
/// before right's, or after them.
fn gate_lines(wiring: &Wiring, right_first: bool, digits: &str) -> String {
    fn add(wiring: &Wiring, right_first: bool, lines: &mut Vec<String>) -> String {
        let Wiring::Node(left, right) = wiring else {
            let letter = b'a' + wiring.group().trailing_zeros() as u8;
            return (letter as char).to_string();
        };
        let (one, other) = if right_first {
            (right, left)
        } else {
            (left, right)
        };
        let [one, other] = [one, other].map(|part| add(part, right_first, lines));
        let (left, right) = if right_first {
            (other, one)
        } else {
            (one, other)
        };
        lines.push(format!("{left} {right}"));
        lines.len().to_string()
    }
    let mut lines = Vec::new();
    add(wiring, right_first, &mut lines);
    let lines: Vec<String> = lines
        .iter()
        .map(|line| format!("{line} {digits}"))
        .collect();
    lines.join("/")
}

/// "Refused with 23 exactly when no filling of that wiring computes the table": at
/// place 0 exactly when it leaves out an input that matters. Counts what was refused
/// at 0, refused at a gate, and kept.
fn assert_every_filling(n: usize, wiring_step: usize, table_step: usize) -> [usize; 3] {
    let mut seen = [0; 3];
    let wirings: Vec<Wiring> = all_leaves(n).flat_map(all_wirings).collect();
    for (at, wiring) in wirings.iter().enumerate().step_by(wiring_step) {
        let digits = if at % 3 == 0 { "0110" } else { "1011" };
        let net = net_sheet(2, names(n), &gate_lines(wiring, at % 2 == 0, digits));
        let computed = tables_of(wiring, n);
        let others = (0..=mask(n)).skip(at % table_step).step_by(table_step);
        let some = computed.iter().copied().take(40);
        for bits in others.chain(some) {
            let inks = inks_of_bits(n, bits);
            let table = table_sheet(2, names(n), &inks);
            let answer = kept(&net, &table);
            assert_eq!(answer.is_ok(), computed.contains(&bits));
            let kind = match &answer {
                Ok((new, changed)) => {
                    assert_kept(&net, &table, new, *changed);
                    2
                }
                Err(refusal) => {
                    assert_eq!(refusal.number, 23);
                    assert!(refusal.place < u64::from(wiring.group().count_ones()));
                    let left_out = mattering(2, n, &inks) & !wiring.group();
                    assert_eq!(refusal.place == 0, left_out != 0);
                    usize::from(refusal.place > 0)
                }
            };
            seen[kind] += 1;
        }
    }
    seen
}

#[test]
fn tables_of_two_levels_against_every_filling() {
    assert_eq!(assert_every_filling(2, 1, 1), [0, 0, 2 * (16 + 16)]);
    let three = assert_every_filling(3, 1, 1);
    let four = assert_every_filling(4, 7, 331);
    let five = assert_every_filling(5, 301, 20_000_001);
    println!("refused at 0, at a gate, and kept: {three:?} {four:?} {five:?}");
    assert!(three[0] > 1_000 && four[0] > 1_000 && five[0] > 500);
    assert!(three[1] > 1_000 && four[1] > 1_000 && five[1] > 1_000);
    assert!(three[2] > 1_000 && four[2] > 500 && five[2] > 100);
}

// ---- three levels: every filling of the inner gate

/// Returns whether some filling of `p q`, then that with `r`, computes a table of three
/// inputs with three levels: whether some gate of p and q, with r, determines the ink.
fn some_filling(inks: &[u8], [p, q, r]: [usize; 3]) -> bool {
    (0..3_usize.pow(9)).any(|filling| {
        let digits: Vec<usize> = levels_of(filling, 3, 9);
        let mut outer: [Option<u8>; 9] = [None; 9];
        inks.iter().enumerate().all(|(index, &ink)| {
            let levels = levels_of(index, 3, 3);
            let place = 3 * digits[3 * levels[p] + levels[q]] + levels[r];
            *outer[place].get_or_insert(ink) == ink
        })
    })
}

#[test]
fn tables_of_three_levels_against_every_filling() {
    let seed = 2_300;
    println!("seed {seed}");
    let mut generator = Generator::new(seed);
    let mut seen = [0; 2];
    for kind in TableKind::ALL {
        for _ in 0..2 {
            let inks = generator.table(3, 3, kind).inks;
            let table = table_sheet(3, "a b c", &inks);
            for (gates, order) in [
                ("a b 000011022/1 c 012112222", [0, 1, 2]),
                ("c a 000011022/b 1 012112222", [2, 0, 1]),
                ("c b 000011022/1 a 012112222", [2, 1, 0]),
            ] {
                let net = net_sheet(3, "a b c", gates);
                let answer = kept(&net, &table);
                assert_eq!(answer.is_ok(), some_filling(&inks, order));
                match &answer {
                    Ok((new, changed)) => assert_kept(&net, &table, new, *changed),
                    Err(refusal) => assert_eq!(*refusal, of_neither(23, 1)),
                }
                seen[usize::from(answer.is_ok())] += 1;
            }
        }
    }
    println!("refused and kept: {seen:?}");
    assert!(seen.iter().all(|&count| count > 5));
}

// ---- at every size

/// A net keeps its own wiring for its own table; keeping the wirings of the settled net
/// and of the trees of the family returns these nets.
#[test]
fn nets_of_every_size() {
    let seed = 2_301;
    println!("seed {seed}");
    let mut generator = Generator::new(seed);
    for (m, n) in allowed_sizes() {
        let (m, n) = (m as usize, n as usize);
        let header = generator.header(m, n);
        let net = print_net_sheet(&header, &generator.net(m, n));
        let table = table_written(&net).expect("a good net sheet");
        let (new, changed) = kept(&net, &table).expect("its own table");
        assert_kept(&net, &table, &new, changed);
        let settled = made(&table).expect("a table with a tree");
        assert_eq!(kept(&settled, &table), Ok((settled.clone(), 0)));
        let count = counted(&table).expect("a good table sheet");
        let number = generator.rng.number() % count;
        let tree = numbered(&table, number).expect("a number below the count");
        assert_eq!(kept(&tree, &table), Ok((tree.clone(), 0)));
        // Another table: refused with 23, or kept.
        let kind = *generator.rng.pick(&TableKind::ALL);
        let other = print_table_sheet(&header, &generator.table(m, n, kind));
        match kept(&net, &other) {
            Ok((new, changed)) => assert_kept(&net, &other, &new, changed),
            Err(refusal) => {
                assert_eq!(refusal, of_neither(23, refusal.place));
                assert!(refusal.place < n as u64);
            }
        }
    }
}

// ---- the order of refusals

#[test]
fn the_net_sheet_then_the_table_sheet_then_12() {
    let net = net_sheet(2, "a b", "a b 0110");
    let table = table_sheet(2, "a b", &[0, 1, 1, 0]);
    let bad_net = net_sheet(2, "a b", "a a 0110");
    let bad_table = table_sheet(2, "a b", &[0, 1, 1, 3]);
    assert_eq!(kept(&bad_net, &bad_table), Err(of_net(8, 41)));
    assert_eq!(kept(&bad_net, &table), Err(of_net(8, 41)));
    assert_eq!(kept(&net, &bad_table), Err(of_table(6, 48)));
    assert_eq!(kept(&table, &net), Err(of_net(1, 21)));
    for other in [
        table_sheet(2, "b a", &[0, 1, 1, 0]),
        table_sheet(2, "a bb", &[0, 1, 1, 0]),
        table_sheet(2, "a b c", &[0; 8]),
        table_sheet(3, "a b", &[0; 9]),
    ] {
        // 12 before 13, and no buffer is changed.
        for length in [0, 100] {
            let (mut cells, mut out) = (vec![9; length], vec![9; length]);
            let answer = keep(&net, &other, &mut cells, &mut out);
            assert_eq!(answer, Err(of_neither(12, 0)));
            assert_eq!([cells, out], [vec![9; length], vec![9; length]]);
        }
    }
}
