//! What every call leaves in its buffers: each length around each
//! need, with the bytes beyond the need and the bytes after a refusal. The marks
//! buffer of marking is in rust/sitgurp/tests/bare.rs, for both implementations.

use crate::common::*;
use reference::{
    check, family_count, family_tree, glyph, keep, make, make_shallow, settle, settle_shallow,
    tidy, write_table, Job, Kept, Refusal, Verdict,
};

/// Returns a buffer with some content: no two neighbours are equal, and none is
/// a level, a mark or a byte of a sheet.
fn lent(length: usize) -> Vec<u8> {
    (0..length).map(|place| 200 + (place % 50) as u8).collect()
}

/// Returns the buffer's content after `front` was written to it.
fn written(length: usize, front: &[u8]) -> Vec<u8> {
    let mut buffer = lent(length);
    buffer[..front.len()].copy_from_slice(front);
    buffer
}

/// Returns 0, one less than the need, the need, one more, many more.
fn lengths(need: usize) -> [usize; 5] {
    [0, need - 1, need, need + 1, need + 60]
}

type Call = fn(&[u8], &mut [u8], &mut [u8], &mut [u8]) -> Result<usize, Refusal>;

fn settle_shallow_length(
    sheet: &[u8],
    cells: &mut [u8],
    marks: &mut [u8],
    out: &mut [u8],
) -> Result<usize, Refusal> {
    settle_shallow(sheet, cells, marks, out).map(|answer| answer.length)
}

fn make_shallow_length(
    sheet: &[u8],
    cells: &mut [u8],
    marks: &mut [u8],
    out: &mut [u8],
) -> Result<usize, Refusal> {
    make_shallow(sheet, cells, marks, out).map(|answer| answer.length)
}

/// Writes the tree with number 2.
fn third_tree(
    sheet: &[u8],
    cells: &mut [u8],
    marks: &mut [u8],
    out: &mut [u8],
) -> Result<usize, Refusal> {
    family_tree(sheet, 2, cells, marks, out)
}

/// Finishes a job on the sheet after all its steps.
fn finished_job(
    sheet: &[u8],
    cells: &mut [u8],
    marks: &mut [u8],
    out: &mut [u8],
) -> Result<usize, Refusal> {
    let (mut job, refusal) = Job::open(sheet);
    assert_eq!(refusal, None);
    while job.step().is_ok() {}
    job.finish(cells, marks, out)
}

/// A sheet and what settling or making must write from it.
struct Example {
    call: Call,
    sheet: Vec<u8>,
    cells: Vec<u8>,
    marks: Vec<u8>,
    /// The sheet that is written, or refusal 16, or 17 instead.
    result: Result<Vec<u8>, Refusal>,
}

impl Example {
    /// Returns the answer in document 01's order: 13, 14, 16 (or 17), 15.
    fn expected(&self, cells: usize, marks: usize, out: usize) -> Result<usize, Refusal> {
        if cells < self.cells.len() {
            return Err(of_neither(13, self.cells.len() as u64));
        }
        if marks < self.marks.len() {
            return Err(of_neither(14, self.marks.len() as u64));
        }
        let length = self.result.as_ref().map_err(|refusal| *refusal)?.len();
        if out < length {
            return Err(of_neither(15, length as u64));
        }
        Ok(length)
    }

    fn assert_lengths(&self, cells: usize, marks: usize, out: usize) {
        let (mut c, mut k, mut o) = (lent(cells), lent(marks), lent(out));
        let result = (self.call)(&self.sheet, &mut c, &mut k, &mut o);
        assert_eq!(result, self.expected(cells, marks, out));
        let turned_back_early = result.is_err_and(|r| r.number == 13 || r.number == 14);
        if turned_back_early {
            assert_eq!((c, k), (lent(cells), lent(marks)));
        } else {
            assert_eq!(c, written(cells, &self.cells));
            assert_eq!(k, written(marks, &self.marks));
        }
        match (result, &self.result) {
            (Ok(_), Ok(sheet)) => assert_eq!(o, written(out, sheet)),
            _ => assert_eq!(o, lent(out)),
        }
    }

    fn assert_all_lengths(&self) {
        let out_need = self.result.as_ref().map_or(300, Vec::len);
        for cells in lengths(self.cells.len()) {
            for marks in lengths(self.marks.len()) {
                for out in lengths(out_need) {
                    self.assert_lengths(cells, marks, out);
                }
            }
        }
    }
}

/// The exclusive or of three inputs: every group of several has two classes and
/// a tree.
#[test]
fn settle_at_every_length() {
    Example {
        call: settle,
        sheet: net_sheet(2, "a b c", "a b 0110/1 c 0110"),
        cells: vec![0, 1, 1, 0, 1, 0, 0, 1],
        marks: packed(&[0, 2, 2, 2, 2, 2, 2, 2]),
        result: Ok(net_sheet(2, "a b c", "b c 0110/a 1 0110")),
    }
    .assert_all_lengths();
}

/// Case 7, from its table.
#[test]
fn make_at_every_length() {
    let rule = |x: &[usize]| {
        let e = if x[3] == 0 { 0 } else { x[0] };
        let most = e.max(x[1]);
        usize::from((x[2] == 0 && most >= 1) || (x[2] == 1 && most == 2))
    };
    let gates = "a d 000011022/1 b 012112222/2 c 000100110";
    for call in [make as Call, finished_job] {
        Example {
            call,
            sheet: rule_sheet(3, "a b c d", rule),
            cells: inks_of(3, 4, rule),
            // {a, d}, {a, b, d} and the whole group have trees, {a, b, c} has none.
            marks: packed(&[0, 2, 2, 0, 2, 0, 0, 1, 2, 2, 0, 2, 0, 0, 0, 2]),
            result: Ok(net_sheet(3, "a b c d", gates)),
        }
        .assert_all_lengths();
    }
}

/// Case 5: 16 comes before 15, and leaves cells and marks written.
#[test]
fn make_without_a_tree_at_every_length() {
    let rule = |x: &[usize]| usize::from(x.iter().sum::<usize>() >= 2);
    for call in [make as Call, make_shallow_length, finished_job] {
        Example {
            call,
            sheet: rule_sheet(2, "a b c", rule),
            cells: vec![0, 0, 0, 1, 0, 1, 1, 1],
            marks: packed(&[0, 2, 2, 0, 2, 0, 0, 1]),
            result: Err(of_neither(16, 7)),
        }
        .assert_all_lengths();
    }
}

/// The exclusive or of four inputs, whose shallow net is not the settled one.
#[test]
fn shallow_calls_at_every_length() {
    let rule = |x: &[usize]| x.iter().sum::<usize>() % 2;
    let table = rule_sheet(2, "a b c d", rule);
    let net = net_sheet(2, "a b c d", "b d 1001/a 1 1001/c 2 0110");
    for (call, sheet) in [
        (make_shallow_length as Call, table),
        (settle_shallow_length, net),
    ] {
        Example {
            call,
            sheet,
            cells: inks_of(2, 4, rule),
            marks: packed(&[vec![0], vec![2; 15]].concat()),
            result: Ok(net_sheet(2, "a b c d", "a b 0110/c d 0110/1 2 0110")),
        }
        .assert_all_lengths();
    }
}

/// The exclusive or of three inputs has a tree with number 2; if there is no
/// such number, 17 comes before 15 and leaves cells and marks written.
#[test]
fn a_tree_of_the_family_at_every_length() {
    let sum = |x: &[usize]| x.iter().sum::<usize>() % 2;
    let most = |x: &[usize]| usize::from(x.iter().sum::<usize>() >= 2);
    let tree = net_sheet(2, "a b c", "a c 0110/1 b 0110");
    Example {
        call: third_tree,
        sheet: rule_sheet(2, "a b c", sum),
        cells: vec![0, 1, 1, 0, 1, 0, 0, 1],
        marks: packed(&[0, 2, 2, 2, 2, 2, 2, 2]),
        result: Ok(tree),
    }
    .assert_all_lengths();
    Example {
        call: third_tree,
        sheet: rule_sheet(2, "a b c", most),
        cells: vec![0, 0, 0, 1, 0, 1, 1, 1],
        marks: packed(&[0, 2, 2, 0, 2, 0, 0, 1]),
        result: Err(of_neither(17, 2)),
    }
    .assert_all_lengths();
    Example {
        call: third_tree,
        sheet: rule_sheet(2, "a b", sum),
        cells: vec![0, 1, 1, 0],
        marks: packed(&[0, 2, 2, 2]),
        result: Err(of_neither(17, 2)),
    }
    .assert_all_lengths();
}

/// Checks a table of three inputs with 2 levels.
fn assert_count_at_every_length(inks: [u8; 8], of_groups: [u8; 8], count: u64) {
    let of_groups = packed(&of_groups);
    let sheet = table_sheet(2, "a b c", &inks);
    for cells in lengths(8) {
        for marks in lengths(2) {
            let (mut c, mut k) = (lent(cells), lent(marks));
            let answer = family_count(&sheet, &mut c, &mut k);
            match (cells < 8, marks < 2) {
                (true, _) => assert_eq!(answer, Err(of_neither(13, 8))),
                (_, true) => assert_eq!(answer, Err(of_neither(14, 2))),
                _ => assert_eq!(answer, Ok(count)),
            }
            if answer.is_ok() {
                assert_eq!((c, k), (written(cells, &inks), written(marks, &of_groups)));
            } else {
                assert_eq!((c, k), (lent(cells), lent(marks)));
            }
        }
    }
}

/// Count 0 is an answer, and leaves cells and marks written.
#[test]
fn the_count_of_a_family_at_every_length() {
    assert_count_at_every_length([0, 1, 1, 0, 1, 0, 0, 1], [0, 2, 2, 2, 2, 2, 2, 2], 3);
    assert_count_at_every_length([0, 0, 0, 1, 0, 1, 1, 1], [0, 2, 2, 0, 2, 0, 0, 1], 0);
}

/// The lengths needed at the largest sizes.
#[test]
fn settle_and_make_at_the_largest_sizes() {
    for (m, n, cells) in [(2, 12, 4_096), (4, 6, 4_096), (8, 4, 4_096), (9, 3, 729)] {
        let names: Vec<String> = (0..n).map(|input| format!("x{input}")).collect();
        let sheet = rule_sheet(m, &names.join(" "), |x| x.iter().sum::<usize>() % m);
        let settled_sheet = made(&sheet).expect("a sum has a tree");
        let marks = packed(&[vec![0], vec![2; (1 << n) - 1]].concat());
        for (call, sheet) in [(settle as Call, settled_sheet.clone()), (make, sheet)] {
            let example = Example {
                call,
                sheet,
                cells: inks_of(m, n, |x| x.iter().sum::<usize>() % m),
                marks: marks.clone(),
                result: Ok(settled_sheet.clone()),
            };
            assert_eq!(example.cells.len(), cells);
            let (marks, out) = ((1 << n) / 4, settled_sheet.len());
            assert_eq!(example.marks.len(), marks);
            example.assert_lengths(cells, marks, out);
            example.assert_lengths(cells + 1, marks + 1, out + 1);
            example.assert_lengths(cells - 1, marks, out);
            example.assert_lengths(cells, marks - 1, out);
            example.assert_lengths(cells, marks, out - 1);
        }
    }
}

/// 1 to 8 come before 13 to 15 and change no buffer.
#[test]
fn a_refused_sheet_changes_no_buffer() {
    let sheets = [
        "",
        "levels inputs/1 2/",
        "levels inputs/2 1/",
        "levels inputs/2 2/a a",
        "levels inputs/2 2/a b ink/1",
        "levels inputs/2 2/a b ink/0 0 0/0 1 0/1 0 0/1 1 2/",
        "levels inputs/2 2/a b ink/0 0 0/0 1 0/1 0 0/1 1 0/x",
        "levels inputs/2 2/a b/left right table/a c",
        "levels inputs/2 2/a b/left right table/a a",
        "levels inputs/2 2/a b/left right table/a b 0002/",
        "levels inputs/2 2/a b/left right table/a b 0001/x",
    ];
    for sheet in sheets.map(lines) {
        for length in [0, 1, 100] {
            for call in [
                settle as Call,
                make,
                settle_shallow_length,
                make_shallow_length,
                third_tree,
            ] {
                let (mut c, mut k, mut o) = (lent(length), lent(length), lent(length));
                let refusal = call(&sheet, &mut c, &mut k, &mut o).expect_err("a bad sheet");
                assert!((1..=8).contains(&refusal.number));
                assert_eq!([c, k, o], [(); 3].map(|_| lent(length)));
            }
            let (mut c, mut k) = (lent(length), lent(length));
            let refusal = family_count(&sheet, &mut c, &mut k).expect_err("a bad sheet");
            assert!((1..=8).contains(&refusal.number));
            assert_eq!([c, k], [(); 2].map(|_| lent(length)));
            let mut out = lent(length);
            let refusal = write_table(&sheet, &mut out).expect_err("a bad sheet");
            assert!((1..=8).contains(&refusal.number));
            assert_eq!(out, lent(length));
            let mut cells = lent(length);
            let refusal = check(&sheet, &sheet, &mut cells).expect_err("a bad sheet");
            assert!((1..=8).contains(&refusal.number));
            assert_eq!(cells, lent(length));
            let (mut c, mut o) = (lent(length), lent(length));
            let refusal = tidy(&sheet, &mut c, &mut o).expect_err("a bad sheet");
            assert!((1..=8).contains(&refusal.number));
            assert_eq!([c, o], [(); 2].map(|_| lent(length)));
        }
    }
}

#[test]
fn write_table_at_every_length() {
    let net = net_sheet(3, "in out", "out in 001122012");
    let table = lines(
        "levels inputs/3 2/in out ink/0 0 0/0 1 1/0 2 0/1 0 0/1 1 2/1 2 1/2 0 1/2 1 2/2 2 2/",
    );
    for length in lengths(table.len()) {
        let mut out = lent(length);
        let result = write_table(&net, &mut out);
        if length < table.len() {
            assert_eq!(result, Err(of_neither(15, table.len() as u64)));
            assert_eq!(out, lent(length));
        } else {
            assert_eq!(result, Ok(table.len()));
            assert_eq!(out, written(length, &table));
        }
    }
}

/// 13, then 15 with the cells written.
#[test]
fn tidy_at_every_length() {
    let loose = lines("levels inputs/2 2/a  b ink /1 0 1/0 1 0/1 1 0/0 0 1/");
    let strict = table_sheet(2, "a b", &[1, 0, 1, 0]);
    for cells in lengths(4) {
        for out in lengths(strict.len()) {
            let (mut c, mut o) = (lent(cells), lent(out));
            let answer = tidy(&loose, &mut c, &mut o);
            match (cells < 4, out < strict.len()) {
                (true, _) => assert_eq!(answer, Err(of_neither(13, 4))),
                (_, true) => assert_eq!(answer, Err(of_neither(15, strict.len() as u64))),
                _ => assert_eq!(answer, Ok(strict.len())),
            }
            let front = if cells < 4 { &[][..] } else { &[1, 0, 1, 0] };
            assert_eq!(c, written(cells, front));
            let front = if answer.is_ok() { &strict[..] } else { &[] };
            assert_eq!(o, written(out, front));
        }
    }
}

/// 13, then 23, then 15; these two leave the cells written.
#[test]
fn keep_at_every_length() {
    let sum = inks_of(2, 3, |x| x.iter().sum::<usize>() % 2);
    let most = inks_of(2, 3, |x| usize::from(x.iter().sum::<usize>() >= 2));
    let net = net_sheet(2, "a b c", "b a 0110/c 1 1001");
    let new = net_sheet(2, "a b c", "b a 0110/c 1 0110");
    for (inks, filled) in [(sum, true), (most, false)] {
        let table = table_sheet(2, "a b c", &inks);
        for cells in lengths(8) {
            for out in lengths(new.len()) {
                let (mut c, mut o) = (lent(cells), lent(out));
                let answer = keep(&net, &table, &mut c, &mut o);
                let due = match (cells < 8, filled, out < new.len()) {
                    (true, _, _) => Err(of_neither(13, 8)),
                    (_, false, _) => Err(of_neither(23, 1)),
                    (_, _, true) => Err(of_neither(15, new.len() as u64)),
                    _ => Ok(Kept {
                        length: new.len(),
                        changed: 4,
                    }),
                };
                assert_eq!(answer, due);
                let front = if cells < 8 { &[][..] } else { &inks };
                assert_eq!(c, written(cells, front));
                let front = if answer.is_ok() { &new[..] } else { &[] };
                assert_eq!(o, written(out, front));
            }
        }
    }
}

/// The output needs a byte for each cell.
#[test]
fn glyph_at_every_length() {
    let net = net_sheet(3, "a b", "a b 000111222");
    let picture = [0, 1, 2, 2, 0, 1];
    for length in lengths(6) {
        let mut out = lent(length);
        let answer = glyph(&net, 3, 2, &picture, &[0; 4], &mut out);
        if length < 6 {
            assert_eq!(answer, Err(of_neither(15, 6)));
            assert_eq!(out, lent(length));
        } else {
            assert_eq!(answer, Ok(6));
            assert_eq!(out, written(length, &picture));
        }
    }
}

/// "It puts the table sheet's inks in the cells buffer", agreeing or not.
#[test]
fn check_at_every_length() {
    let net = net_sheet(2, "a b", "a b 0110");
    let examples = [
        ([0, 1, 1, 0], Verdict::Agree),
        ([0, 1, 1, 1], Verdict::Differ(3)),
        ([1, 0, 0, 1], Verdict::Differ(0)),
    ];
    for (inks, verdict) in examples {
        let table = table_sheet(2, "a b", &inks);
        for length in lengths(4) {
            let mut cells = lent(length);
            let result = check(&net, &table, &mut cells);
            if length < 4 {
                assert_eq!(result, Err(of_neither(13, 4)));
                assert_eq!(cells, lent(length));
            } else {
                assert_eq!(result, Ok(verdict));
                assert_eq!(cells, written(length, &inks));
            }
        }
    }
}
