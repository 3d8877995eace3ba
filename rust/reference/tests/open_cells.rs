//! Open cells: the sign in a sheet, what a check skips, and what needs a
//! full table.

use crate::common::*;
use reference::generate::{Generator, TableKind};
use reference::sheet::{print_net_sheet, print_table_sheet, read_table_sheet};
use reference::{
    allowed_sizes, check, family_count, family_tree, fewest_levels, keep, make, make_program,
    make_shallow, marking, multiplicities, multiplicity, tidy, Job, Verdict,
};

const NET: &str = "levels inputs/2 2/a b/left right table/a b 0001/";
const OPEN: &str = "levels inputs/2 2/a b ink/0 0 0/0 1 -/1 0 -/1 1 1/";

// ---- the sign

/// "Table sheets take it, and a cell holds m for it."
#[test]
fn the_cell_holds_m() {
    let (header, table) = read_table_sheet(&lines(OPEN)).expect("accepted");
    assert_eq!(table.inks, [0, 2, 2, 1]);
    assert_eq!(print_table_sheet(&header, &table), lines(OPEN));
    let mut cells = [9; 5];
    assert_eq!(
        check(&lines(NET), &lines(OPEN), &mut cells),
        Ok(Verdict::Agree)
    );
    assert_eq!(cells, [0, 2, 2, 1, 9]);
    // with 9 levels the cell holds 9, which no sheet has as a digit
    let inks: Vec<u8> = (0..81).map(|index| index % 10).collect();
    let sheet = table_sheet(9, "a b", &inks);
    let (_, table) = read_table_sheet(&sheet).expect("accepted");
    assert_eq!(table.inks, inks);
}

/// "Tidying carries the sign."
#[test]
fn tidying_carries_the_sign() {
    let loose = lines("levels inputs/2 2/a b   ink /1 1  1/0 1 -  /0 0 0/1 0   -/");
    let (mut cells, mut out) = ([9; 5], [9; 60]);
    assert_eq!(tidy(&loose, &mut cells, &mut out), Ok(50));
    assert_eq!(cells, [0, 2, 2, 1, 9]);
    assert_eq!(out[..50], lines(OPEN));
    assert_eq!(tidied(&lines(OPEN)), Ok(lines(OPEN)));
    // a repeated row is 20 before its ink is judged, open or not
    for (text, place) in [
        ("levels inputs/2 2/a b ink/0 0 -/^0 0 0/", 20),
        ("levels inputs/2 2/a b ink/0 0 0/^0 0 -/", 20),
        ("levels inputs/2 2/a b ink/0 0 ^--/", 6),
        ("levels inputs/2 2/a b ink/^- 0 0/", 5),
    ] {
        let at = text.find('^').expect("a marked place") as u64;
        assert_eq!(
            tidied(&lines(&text.replace('^', ""))),
            Err(of_table(place, at))
        );
    }
}

// ---- checking

/// "A check passes over open assignments, for its agreement and for the lowest index
/// that differs", and writes the inks.
#[test]
fn a_check_passes_over_open_cells() {
    let net = net_sheet(3, "a b", "a b 012120201");
    let inks: [u8; 9] = [0, 1, 2, 1, 2, 0, 2, 0, 1];
    // every set of cells differs, every set is open
    for differing in 0_u32..1 << 9 {
        for open in [
            0,
            0b1,
            0b101010101,
            0b010101010,
            0b111000000,
            0b111111111,
            0b100000000,
        ] {
            let mut table = inks;
            for (index, ink) in table.iter_mut().enumerate() {
                if differing >> index & 1 == 1 {
                    *ink = (*ink + 1) % 3;
                }
                if open >> index & 1 == 1 {
                    *ink = 3;
                }
            }
            let lowest = (differing & !open).trailing_zeros();
            let due = match lowest {
                32 => Verdict::Agree,
                lowest => Verdict::Differ(lowest.into()),
            };
            let mut cells = [7; 9];
            let sheet = table_sheet(3, "a b", &table);
            assert_eq!(check(&net, &sheet, &mut cells), Ok(due));
            assert_eq!(cells, table);
        }
    }
}

/// 12 and 13 as before, and never 27.
#[test]
fn a_check_is_refused_as_before() {
    let other = lines("levels inputs/2 2/b a ink/0 0 -/0 1 -/1 0 -/1 1 -/");
    assert_eq!(check(&lines(NET), &other, &mut []), Err(of_neither(12, 0)));
    assert_eq!(
        check(&lines(NET), &lines(OPEN), &mut [7; 3]),
        Err(of_neither(13, 4))
    );
    let bad = lines("levels inputs/2 2/a b ink/0 0 -/0 1 x/");
    assert_eq!(check(&lines(NET), &bad, &mut []), Err(of_table(6, 36)));
}

// ---- a full table is needed

/// "For bare cells between 10 and 11"; marking has no 11, and 14 follows.
#[test]
fn refusal_27_of_bare_cells() {
    let open = [0, 2, 2, 1];
    for group in [0, 1, 3, 4, u64::MAX] {
        assert_eq!(multiplicity(2, 2, &open, group), Err(of_neither(27, 1)));
    }
    for length in [0, 1, 9] {
        let mut marks = vec![7; length];
        assert_eq!(marking(2, 2, &open, &mut marks), Err(of_neither(27, 1)));
        assert_eq!(marks, vec![7; length]);
    }
    // 9, then 10 over all cells, then 27
    assert_eq!(multiplicity(2, 2, &[2, 2, 2], 1), Err(of_neither(9, 0)));
    assert_eq!(multiplicity(2, 2, &[2, 2, 2, 3], 0), Err(of_neither(10, 3)));
    assert_eq!(
        marking(2, 2, &[2, 2, 2, 3], &mut []),
        Err(of_neither(10, 3))
    );
    for index in 0..9 {
        let mut cells = [2; 9];
        cells[index..].fill(3);
        let refusal = of_neither(27, index as u64);
        assert_eq!(multiplicity(3, 2, &cells, 0), Err(refusal));
        assert_eq!(marking(3, 2, &cells, &mut []), Err(refusal));
    }
    assert_eq!(multiplicity(3, 2, &[2; 9], 3), Ok(1));
}

/// Makes every call that needs a full table, with buffers of these lengths: each is refused
/// with 27 at this index, and changes no buffer.
fn assert_refused(sheet: &[u8], index: u64, cells: usize, marks: usize, out: usize) {
    let due = of_table(27, index);
    let lent = || (vec![7; cells], vec![7; marks], vec![7; out]);
    let (mut c, mut k, mut o) = lent();
    assert_eq!(make(sheet, &mut c, &mut k, &mut o), Err(due));
    assert_eq!(make_shallow(sheet, &mut c, &mut k, &mut o), Err(due));
    assert_eq!(family_count(sheet, &mut c, &mut k), Err(due));
    for number in [0, u64::MAX] {
        assert_eq!(family_tree(sheet, number, &mut c, &mut k, &mut o), Err(due));
    }
    assert_eq!((c, k, o), lent());
    assert_eq!(multiplicities(sheet), Err(due));
    assert_eq!(fewest_levels(sheet), Err(due));
    let (job, refusal) = Job::open(sheet);
    assert_eq!(refusal, Some(due));
    assert_eq!(job, Job::open(b"").0);
}

/// "After 12 and before 13": before any buffer is checked.
#[test]
fn refusal_27_of_a_table_sheet() {
    for (cells, marks, out) in [(0, 0, 0), (4, 1, 48), (3, 9, 99)] {
        assert_refused(&lines(OPEN), 1, cells, marks, out);
    }
    // the sheet's own faults come first, wherever the sign is
    let bad = lines("levels inputs/2 2/a b ink/0 0 -/0 1 -/1 0 -/1 1 2/");
    assert_eq!(made(&bad), Err(of_table(6, 48)));
    let more = lines("levels inputs/2 2/a b ink/0 0 -/0 1 -/1 0 -/1 1 -/0/");
    assert_eq!(made(&more), Err(of_table(1, 50)));
    assert_eq!(make_program(&lines(OPEN)), b"number place\n27 1\n");
}

/// The net sheet, the table sheet, 12, 27, 13, 23, 15; 27 names the table sheet.
#[test]
fn refusal_27_of_keeping() {
    let majority = |open: usize| {
        let mut inks = inks_of(2, 3, |x| usize::from(x.iter().sum::<usize>() >= 2));
        inks[open] = 2;
        table_sheet(2, "a b c", &inks)
    };
    // without the sign: 23 at 0, 23 at 1
    for gates in ["a b 0001", "a b 0001/1 c 0001"] {
        let net = net_sheet(2, "a b c", gates);
        for open in 0..8 {
            for length in [0, 8, 90] {
                let (mut cells, mut out) = (vec![7; length], vec![7; length]);
                let answer = keep(&net, &majority(open), &mut cells, &mut out);
                assert_eq!(answer, Err(of_table(27, open as u64)));
                assert_eq!((cells, out), (vec![7; length], vec![7; length]));
            }
        }
    }
    let other = net_sheet(2, "a b d", "a b 0001");
    assert_eq!(kept(&other, &majority(0)), Err(of_neither(12, 0)));
    let unused = net_sheet(2, "a b c d", "a b 0001/c d 0001");
    assert_eq!(kept(&unused, &majority(0)), Err(of_net(26, 61)));
}

/// "A sheet that is turned back opens an empty job beside its refusal."
#[test]
fn a_job_at_its_opening() {
    let (mut job, refusal) = Job::open(&lines(OPEN));
    assert_eq!(refusal, Some(of_table(27, 1)));
    assert_eq!((job.to_go(), job.marks()), (0, &[0][..]));
    assert_eq!(job.step(), Err(of_neither(21, 0)));
    assert_eq!(job.mark(1), Err(of_neither(11, 0)));
    let finished = job.finish(&mut [7; 4], &mut [7; 4], &mut [7; 60]);
    assert_eq!(finished, Err(of_neither(9, 0)));
}

// ---- at every size

#[test]
fn open_tables_of_every_size() {
    let seed = 1_300;
    println!("seed {seed}");
    let mut generator = Generator::new(seed);
    for (m, n) in allowed_sizes() {
        for round in 0..4 {
            let (m, n) = (m as usize, n as usize);
            let kind = TableKind::ALL[round * 2];
            let header = generator.header(m, n);
            let full = generator.table(m, n, kind);
            let open = generator.with_open_cells(full.clone());
            let sheet = print_table_sheet(&header, &open);
            let index = open.first_open().expect("an open cell") as u64;
            assert_refused(&sheet, index, 0, 4_000, 100);
            assert_eq!(tidied(&sheet).as_ref(), Ok(&sheet));
            let loose = generator.loosened(&sheet);
            assert_eq!(tidied(&loose).as_ref(), Ok(&sheet));
            assert_checked(&mut generator, &header, &open, &sheet);
            let net = print_net_sheet(&header, &generator.net(m, n));
            assert_eq!(kept(&net, &sheet), Err(of_table(27, index)));
            // with its cells filled it is accepted like any other sheet
            let filled = print_table_sheet(&header, &full);
            assert_eq!(made(&filled).map_err(|r| r.number).err().unwrap_or(16), 16);
        }
    }
}

/// Checks the table against a net, by the cells that are not open.
fn assert_checked(
    generator: &mut Generator,
    header: &reference::sheet::Header,
    open: &reference::net::Table,
    sheet: &[u8],
) {
    let net = generator.net(open.m, open.n);
    let mut table = net.table();
    let cells = table.inks.len();
    let counted = |index: &usize| usize::from(open.inks[*index]) < open.m;
    let differs = |index: &usize| counted(index) && table.inks[*index] != open.inks[*index];
    let due = match (0..cells).find(differs) {
        Some(index) => Verdict::Differ(index as u64),
        None => Verdict::Agree,
    };
    let net_sheet = print_net_sheet(header, &net);
    let mut lent = [7; CELLS];
    assert_eq!(check(&net_sheet, sheet, &mut lent), Ok(due));
    assert_eq!(lent[..cells], open.inks);
    // its own table with the same cells open agrees
    for index in (0..cells).filter(|index| !counted(index)) {
        table.inks[index] = open.m as u8;
    }
    let own = print_table_sheet(header, &table);
    assert_eq!(check(&net_sheet, &own, &mut lent), Ok(Verdict::Agree));
}
