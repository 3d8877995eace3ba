//! Swapping shades leaves the wiring (document 02, K14): two tables of which one is got from the other by a one-to-one renaming of the ink levels are both
//! refused, with the same number and place and the same marks, or both made, and then their sheets are the same but for the last gate's table. Making,
//! shallow making, the trees of every number and kept wirings, at every allowed size, with and without trees. The library is held against these
//! sentences and against the second implementation.

use crate::common::{due, full, got, sizes, Back};
use reference::generate::{Generator, TableKind};
use reference::net::{Net, Table, Wire};
use reference::refusal::Refusal as Expected;
use reference::sheet::{print_net_sheet, print_table_sheet, read_net_sheet, Header};
use sitgurp::{Family, Refusal, MOST_CELLS, MOST_MARKS, MOST_NET_SHEET};
use std::fmt::Debug;

const SEED: u64 = 14;

// ---- two tables

/// A table sheet, and the sheet with the same first three lines whose inks are renamed: level v is `renaming[v]`.
struct Pair {
    renaming: Vec<u8>,
    sheet: Vec<u8>,
    other: Vec<u8>,
}

impl Pair {
    fn of(header: &Header, table: Table, renaming: Vec<u8>) -> Pair {
        let sheet = print_table_sheet(header, &table);
        let inks = renamed(&table.inks, &renaming);
        let other = print_table_sheet(header, &Table { inks, ..table });
        Pair {
            renaming,
            sheet,
            other,
        }
    }

    fn any(generator: &mut Generator, m: usize, n: usize, kind: TableKind) -> Pair {
        let header = generator.header(m, n);
        let table = generator.table(m, n, kind);
        Pair::of(&header, table, renaming(generator, m))
    }
}

fn renamed(inks: &[u8], renaming: &[u8]) -> Vec<u8> {
    inks.iter().map(|&ink| renaming[usize::from(ink)]).collect()
}

/// Dark for light, every third time; any other as often as it comes.
fn renaming(generator: &mut Generator, m: usize) -> Vec<u8> {
    let mut levels: Vec<u8> = (0..m as u8).rev().collect();
    if generator.rng.below(3) > 0 {
        generator.rng.shuffle(&mut levels);
    }
    levels
}

/// Every order of the levels below m.
fn every_renaming(m: usize) -> Vec<Vec<u8>> {
    let Some(last) = m.checked_sub(1) else {
        return vec![Vec::new()];
    };
    let shorter = every_renaming(last).into_iter();
    let with_last = |order: Vec<u8>| {
        (0..m).map(move |place| {
            let mut order = order.clone();
            order.insert(place, last as u8);
            order
        })
    };
    shorter.flat_map(with_last).collect()
}

// ---- what a call comes to

/// The buffers that are lent, full of other bytes.
#[derive(Clone, PartialEq)]
struct Lent {
    cells: Vec<u8>,
    marks: Vec<u8>,
    output: Vec<u8>,
}

impl Lent {
    fn ample() -> Lent {
        Lent {
            cells: full(MOST_CELLS),
            marks: full(MOST_MARKS),
            output: full(MOST_NET_SHEET),
        }
    }
}

/// An answer, and the buffers that were left beside it.
struct Came<T> {
    answer: Result<T, Back>,
    lent: Lent,
}

fn ours<T>(call: impl FnOnce(&mut Lent) -> Result<T, Refusal>) -> Came<T> {
    let mut lent = Lent::ample();
    let answer = got(call(&mut lent));
    Came { answer, lent }
}

/// Both implementations: the answers and all lent bytes are equal.
fn same<T: Debug + PartialEq>(
    proved: impl FnOnce(&mut Lent) -> Result<T, Refusal>,
    second: impl FnOnce(&mut Lent) -> Result<T, Expected>,
) -> Came<T> {
    let came = ours(proved);
    let mut theirs = Lent::ample();
    assert_eq!(came.answer, due(second(&mut theirs)));
    assert!(came.lent == theirs, "buffers differ");
    came
}

/// Making: the length of the sheet.
fn make(sheet: &[u8]) -> Came<usize> {
    same(
        |l| sitgurp::make(sheet, &mut l.cells, &mut l.marks, &mut l.output),
        |l| reference::make(sheet, &mut l.cells, &mut l.marks, &mut l.output),
    )
}

/// Shallow making: the length of the sheet, and the layers.
fn make_shallow(sheet: &[u8]) -> Came<(usize, usize)> {
    same(
        |l| {
            sitgurp::make_shallow(sheet, &mut l.cells, &mut l.marks, &mut l.output)
                .map(|shallow| (shallow.length, shallow.layers))
        },
        |l| {
            reference::make_shallow(sheet, &mut l.cells, &mut l.marks, &mut l.output)
                .map(|shallow| (shallow.length, shallow.layers))
        },
    )
}

fn count(sheet: &[u8]) -> Came<u64> {
    same(
        |l| sitgurp::family_count(sheet, &mut l.cells, &mut l.marks),
        |l| reference::family_count(sheet, &mut l.cells, &mut l.marks),
    )
}

/// The tree of a number; the second implementation is slow at the largest sizes, and is asked where `held`.
fn tree(sheet: &[u8], number: u64, held: bool) -> Came<usize> {
    let proved = |l: &mut Lent| {
        sitgurp::family_tree(sheet, number, &mut l.cells, &mut l.marks, &mut l.output)
    };
    if !held {
        return ours(proved);
    }
    same(proved, |l| {
        reference::family_tree(sheet, number, &mut l.cells, &mut l.marks, &mut l.output)
    })
}

/// Keeping: the length of the sheet, and the set of the gates that changed.
fn keep(net: &[u8], sheet: &[u8]) -> Came<(usize, usize)> {
    same(
        |l| {
            sitgurp::keep(net, sheet, &mut l.cells, &mut l.output)
                .map(|kept| (kept.length, kept.changed))
        },
        |l| {
            reference::keep(net, sheet, &mut l.cells, &mut l.output)
                .map(|kept| (kept.length, kept.changed as usize))
        },
    )
}

// ---- what holds of the two

/// What was seen, so that no sentence holds for want of cases.
#[derive(Debug, Default)]
struct Seen {
    made: usize,
    refused: usize,
    /// Nets with digits of the last gate that no assignment reaches, where the renaming moves level 0.
    free: usize,
}

impl Seen {
    /// Two calls on the two sheets: the same marks, the inks renamed; and where sheets were written, of this length, they differ by the renaming alone.
    fn both<T>(&mut self, pair: &Pair, one: &Came<T>, other: &Came<T>, length: Option<usize>) {
        assert!(one.lent.marks == other.lent.marks, "marks differ");
        let cells = table_of(&pair.sheet);
        let others = renamed(&cells, &pair.renaming);
        assert_eq!(one.lent.cells[..cells.len()], cells);
        assert_eq!(other.lent.cells[..cells.len()], others);
        match length {
            Some(length) => {
                let [one, other] = [one, other].map(|came| &came.lent.output[..length]);
                self.nets(&pair.renaming, one, other);
                self.made += 1;
            }
            None => {
                assert_eq!(one.lent.output, other.lent.output);
                self.refused += 1;
            }
        }
    }

    /// The bytes are the same but for the last table, whose reached digits are renamed; the others are 0.
    fn nets(&mut self, renaming: &[u8], sheet: &[u8], other: &[u8]) {
        let ((lines, digits), (others, theirs)) = (last_table(sheet), last_table(other));
        let texts = [lines, others].map(String::from_utf8_lossy);
        assert_eq!(texts[0], texts[1]);
        let reached = reached(&read_net_sheet(sheet).expect("a net sheet").1);
        assert!(read_net_sheet(other).is_ok());
        assert_eq!([digits.len(), theirs.len()], [reached.len(); 2]);
        for (place, is_reached) in reached.iter().enumerate() {
            let due = match is_reached {
                true => b'0' + renaming[usize::from(digits[place] - b'0')],
                false => b'0',
            };
            assert_eq!(theirs[place], due, "digit {place}");
            assert!(*is_reached || digits[place] == b'0', "digit {place}");
        }
        self.free += usize::from(renaming[0] != 0 && reached.contains(&false));
    }
}

/// The inks of a table sheet, read off its rows.
fn table_of(sheet: &[u8]) -> Vec<u8> {
    let rows = sheet.split(|&byte| byte == b'\n').skip(3);
    rows.filter_map(|row| row.last())
        .map(|ink| ink - b'0')
        .collect()
}

/// The bytes of a net sheet before its last field, and that field.
fn last_table(sheet: &[u8]) -> (&[u8], &[u8]) {
    let space = sheet.iter().rposition(|&byte| byte == b' ');
    let (lines, field) = sheet.split_at(space.expect("a net sheet has spaces") + 1);
    (lines, field.strip_suffix(b"\n").expect("a line feed"))
}

/// Whether some assignment reaches each digit of the last gate.
fn reached(net: &Net) -> Vec<bool> {
    let last = net.gates.last().expect("a net has a gate");
    let mut reached = vec![false; net.m * net.m];
    let (left, right) = (carried(net, last.left), carried(net, last.right));
    for (left, right) in left.iter().zip(right) {
        reached[usize::from(*left) * net.m + usize::from(right)] = true;
    }
    reached
}

/// What a wire carries at each assignment.
fn carried(net: &Net, wire: Wire) -> Vec<u8> {
    let (m, n) = (net.m, net.n);
    let table = match wire {
        Wire::Input(input) => Table::of(m, n, |levels| levels[input]),
        Wire::Gate(number) => {
            let gates = net.gates[..number].to_vec();
            Net { m, n, gates }.table()
        }
    };
    table.inks
}

// ---- the calls

/// Making and shallow making: one answer for both, which is a refusal's number and place, or the sheet's length and the layers.
fn made_alike(seen: &mut Seen, pair: &Pair) {
    let (one, other) = (make(&pair.sheet), make(&pair.other));
    assert_eq!(one.answer, other.answer);
    seen.both(pair, &one, &other, one.answer.ok());
    let (one, other) = (make_shallow(&pair.sheet), make_shallow(&pair.other));
    assert_eq!(one.answer, other.answer);
    seen.both(pair, &one, &other, one.answer.ok().map(|answer| answer.0));
}

#[test]
fn every_size_and_kind_of_table() {
    println!("seed {SEED}");
    let mut generator = Generator::new(SEED);
    let mut seen = Seen::default();
    for (m, n) in sizes() {
        for kind in TableKind::ALL {
            let pair = Pair::any(&mut generator, m, n, kind);
            made_alike(&mut seen, &pair);
        }
    }
    println!("{seen:?}");
    assert!(seen.made > 300 && seen.refused > 100 && seen.free > 50);
}

/// Many more of the smaller sizes.
#[test]
fn many_small_tables() {
    let mut generator = Generator::new(SEED + 1);
    let mut seen = Seen::default();
    for _ in 0..1_500 {
        let (m, n) = generator.size();
        if m.pow(n as u32) <= 729 {
            let kind = *generator.rng.pick(&TableKind::ALL);
            made_alike(&mut seen, &Pair::any(&mut generator, m, n, kind));
        }
    }
    println!("{seen:?}");
    assert!(seen.made > 500 && seen.refused > 100 && seen.free > 100);
}

/// Tables of small sizes, one after the other, and every renaming of their levels.
#[test]
fn every_renaming_of_small_tables() {
    assert_eq!(every_renaming(3).len(), 6);
    let mut seen = Seen::default();
    for (m, n, step) in [
        (2_usize, 2, 1),
        (2, 3, 1),
        (2, 4, 97),
        (3, 2, 23),
        (4, 2, 40_000_003),
    ] {
        let cells = m.pow(n as u32);
        let tables = m.pow(cells as u32);
        let names = (0..n).map(|input| vec![b'a' + input as u8]).collect();
        let header = Header { m, n, names };
        for number in (0..tables).step_by(step) {
            let digit = |place: usize| (number / m.pow(place as u32) % m) as u8;
            let inks: Vec<u8> = (0..cells).map(digit).collect();
            for renaming in every_renaming(m) {
                let inks = inks.clone();
                made_alike(
                    &mut seen,
                    &Pair::of(&header, Table { m, n, inks }, renaming),
                );
            }
        }
    }
    println!("{seen:?}");
    assert!(seen.made > 5_000 && seen.refused > 1_000);
}

/// "Given long enough buffers": what suffices for the one suffices for the other, and a byte less does not.
#[test]
fn equally_long() {
    let mut generator = Generator::new(SEED + 2);
    for (m, n) in sizes() {
        let pair = Pair::any(&mut generator, m, n, TableKind::OfSomeInputs);
        let length = make(&pair.sheet).answer.expect("a tree");
        let (cells, marks) = (m.pow(n as u32), (1 << n) / 4);
        let other = |output: usize| {
            let [mut cells, mut marks, mut output] = [cells, marks, output].map(full);
            got(sitgurp::make(
                &pair.other,
                &mut cells,
                &mut marks,
                &mut output,
            ))
        };
        assert_eq!(other(length), Ok(length));
        let short = other(length - 1).map_err(|(number, place, _)| (number, place));
        assert_eq!(short, Err((15, length)));
    }
}

/// As many trees, and under each number what holds of the settled net; past the last both are refused with 17.
#[test]
fn whole_families() {
    let mut generator = Generator::new(SEED + 3);
    let mut seen = Seen::default();
    let mut several = 0;
    for (m, n) in sizes() {
        for kind in TableKind::ALL {
            let pair = Pair::any(&mut generator, m, n, kind);
            let (one, other) = (count(&pair.sheet), count(&pair.other));
            assert_eq!(one.answer, other.answer);
            let trees = one.answer.expect("a good sheet");
            // 20 at most, the first and the last among them
            let mut numbers: Vec<u64> = (0..trees.min(20)).collect();
            if trees > 20 {
                numbers.fill_with(|| generator.rng.number() % trees);
                numbers[..2].copy_from_slice(&[0, trees - 1]);
            }
            for (k, &number) in numbers.iter().chain([&trees]).enumerate() {
                let held = n <= 6 || k == 1;
                let one = tree(&pair.sheet, number, held);
                let other = tree(&pair.other, number, held);
                assert_eq!(one.answer, other.answer);
                assert_eq!(one.answer.is_ok(), number < trees);
                seen.both(&pair, &one, &other, one.answer.ok());
            }
            several += usize::from(trees > 20);
        }
    }
    println!("{seen:?}, {several} families of more than 20");
    assert!(seen.made > 800 && seen.refused > 300 && seen.free > 100 && several > 10);
}

/// A wiring is refused for both tables, with the same number and place, or kept for both; the gates that changed are then the same but for the last.
fn kept_alike(seen: &mut Seen, pair: &Pair, net: &[u8]) {
    let (one, other) = (keep(net, &pair.sheet), keep(net, &pair.other));
    let length = match (&one.answer, &other.answer) {
        (Ok((length, changed)), Ok((theirs, others))) => {
            assert_eq!(length, theirs);
            let (_, net) = read_net_sheet(net).expect("a net sheet");
            let last = 1 << net.gates.len();
            assert_eq!(changed & !last, others & !last);
            Some(*length)
        }
        (one, other) => {
            assert_eq!(one, other);
            None
        }
    };
    seen.both(pair, &one, &other, length);
}

/// Any wiring for tables of every kind, and a net's own for its table, whatever its digits.
#[test]
fn kept_wirings() {
    let mut generator = Generator::new(SEED + 4);
    let mut seen = Seen::default();
    for (m, n) in sizes() {
        for kind in TableKind::ALL {
            let header = generator.header(m, n);
            let net = generator.net(m, n);
            let sheet = print_net_sheet(&header, &net);
            for table in [generator.table(m, n, kind), net.table()] {
                let pair = Pair::of(&header, table, renaming(&mut generator, m));
                kept_alike(&mut seen, &pair, &sheet);
            }
        }
    }
    println!("{seen:?}");
    assert!(seen.made > 400 && seen.refused > 100 && seen.free > 50);
}

/// A tree that was made for one of the two tables is kept as it is for that one, and for the other but for its last gate.
#[test]
fn made_and_kept() {
    let mut generator = Generator::new(SEED + 5);
    let mut seen = Seen::default();
    for (m, n) in sizes() {
        for kind in TableKind::ALL {
            let pair = Pair::any(&mut generator, m, n, kind);
            let family = Family::of(&pair.sheet).expect("a good sheet");
            let number = generator.rng.number() % family.size().max(1);
            let Ok(tree) = family.tree(number) else {
                continue;
            };
            kept_alike(&mut seen, &pair, &tree);
            let changed = |sheet: &[u8]| keep(&tree, sheet).answer.map(|kept| kept.1);
            assert_eq!(changed(&pair.sheet), Ok(0));
            let gates = read_net_sheet(&tree).expect("a net sheet").1.gates.len();
            assert!(changed(&pair.other).is_ok_and(|set| set == 0 || set == 1 << gates));
        }
    }
    println!("{seen:?}");
    assert!(seen.made > 200 && seen.refused == 0 && seen.free > 20);
}

// ---- an example

/// a, and 1 more where b is c: gate 1 has two classes, so that the last digit of each row of gate 2 is reached by no assignment, and is 0 in both.
#[test]
fn free_digits_stay() {
    let table = Table::of(3, 3, |x| (x[0] + u8::from(x[1] == x[2])) % 3);
    let names = [b"a", b"b", b"c"].map(|name| name.to_vec()).to_vec();
    let header = Header { m: 3, n: 3, names };
    let pair = Pair::of(&header, table, vec![2, 1, 0]);
    let lines = |sheet: &[u8]| {
        let text = String::from_utf8(sitgurp::made(sheet).expect("a tree")).expect("text");
        text.lines().skip(4).map(String::from).collect::<Vec<_>>()
    };
    assert_eq!(lines(&pair.sheet), ["b c 011101110", "a 1 100210020"]);
    assert_eq!(lines(&pair.other), ["b c 011101110", "a 1 120010200"]);
}
