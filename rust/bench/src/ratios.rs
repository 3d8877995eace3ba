//! One ratio for each thing timed. Before timing, both results are compared.

use crate::kinds::{sheets, tables, TABLES};
use crate::timing::{least, ratio};
use crate::{plain, plain_sheets};
use reference::generate::{Generator, TableKind};
use reference::sheet::{print_net_sheet, read_table_sheet};
use sitgurp::Verdict;
use std::hint::black_box;
use std::time::Duration;

/// Returns the library's time to mark this many tables, and plain Rust's.
pub fn marking_times(m: usize, n: usize, kind: TableKind, count: usize) -> (Duration, Duration) {
    let tables = tables(11, m, n, kind, count);
    let mut marks = vec![0u8; (1 << n) / 4];
    let mut plain_marks = vec![0u8; 1 << n];
    for cells in &tables {
        sitgurp::marking(m, n, cells, &mut marks).expect("bare cells are good");
        plain::marking(m, n, cells, &mut plain_marks);
        let groups = plain_marks.iter().enumerate();
        for (group, &mark) in groups {
            assert_eq!(sitgurp::mark_of(&marks, group), mark, "both mark alike");
        }
    }
    let proved = least(&tables, |cells| {
        black_box(sitgurp::marking(m, n, black_box(cells), &mut marks)).ok();
    });
    let plain = least(&tables, |cells| {
        black_box(plain::marking(m, n, black_box(cells), &mut plain_marks));
    });
    (proved, plain)
}

pub fn marking(m: usize, n: usize, kind: TableKind) -> f64 {
    let (proved, plain) = marking_times(m, n, kind, TABLES);
    ratio(proved, plain)
}

/// Counts every group's classes, one call per group.
pub fn counting(m: usize, n: usize, kind: TableKind) -> f64 {
    let tables = tables(15, m, n, kind, TABLES);
    let groups = 1..1usize << n;
    let proved = |cells: &[u8], group| sitgurp::multiplicity(m, n, cells, group).ok();
    let second = |cells: &[u8], group| {
        let count = reference::multiplicity(m as u64, n as u64, cells, group as u64);
        count.ok().map(|count| count as usize)
    };
    for cells in &tables {
        for group in groups.clone() {
            let counts = (proved(cells, group), second(cells, group));
            assert_eq!(counts.0, counts.1, "both count alike");
        }
    }
    let all_groups = |count: &dyn Fn(&[u8], usize) -> Option<usize>| {
        least(&tables, |cells| {
            for group in groups.clone() {
                black_box(count(black_box(cells), group));
            }
        })
    };
    ratio(all_groups(&proved), all_groups(&second))
}

pub fn making(m: usize, n: usize, kind: TableKind) -> f64 {
    let sheets = sheets(12, m, n, kind);
    for sheet in &sheets {
        let (made, plain) = (sitgurp::made(sheet).ok(), plain::making(sheet));
        assert_eq!(made, plain, "both make alike");
    }
    let proved = least(&sheets, |sheet| {
        black_box(sitgurp::made(black_box(sheet))).ok();
    });
    let plain = least(&sheets, |sheet| {
        black_box(plain::making(black_box(sheet)));
    });
    ratio(proved, plain)
}

/// Shallow making compared with making, both by the library. Both refuse a table without a tree after marking it.
pub fn shallow_making(m: usize, n: usize, kind: TableKind) -> f64 {
    let sheets = sheets(16, m, n, kind);
    for sheet in &sheets {
        let (shallow, settled) = (sitgurp::made_shallow(sheet), sitgurp::made(sheet));
        assert_eq!(
            shallow.map(|(net, _)| sitgurp::table_of(&net)),
            settled.map(|net| sitgurp::table_of(&net)),
            "both refuse, or make a net with the same table"
        );
    }
    let shallow = least(&sheets, |sheet| {
        black_box(sitgurp::made_shallow(black_box(sheet))).ok();
    });
    let settled = least(&sheets, |sheet| {
        black_box(sitgurp::made(black_box(sheet))).ok();
    });
    ratio(shallow, settled)
}

/// Counting a table sheet's trees compared with marking its bare cells, both by the library.
pub fn family_counting(m: usize, n: usize, kind: TableKind) -> f64 {
    let sheets = sheets(18, m, n, kind);
    let (mut cells, mut marks) = (vec![0; sitgurp::MOST_CELLS], vec![0; sitgurp::MOST_MARKS]);
    let mut bare = Vec::new();
    for sheet in &sheets {
        let count = sitgurp::family_count(sheet, &mut cells, &mut marks).expect("a good sheet");
        let whole = sitgurp::mark_of(&marks, (1 << n) - 1);
        assert_eq!(count > 0, whole == 2, "a tree where the mark is 2");
        bare.push(cells[..m.pow(n as u32)].to_vec());
    }
    let counting = least(&sheets, |sheet| {
        black_box(sitgurp::family_count(
            black_box(sheet),
            &mut cells,
            &mut marks,
        ))
        .ok();
    });
    let marking = least(&bare, |cells| {
        black_box(sitgurp::marking(m, n, black_box(cells), &mut marks)).ok();
    });
    ratio(counting, marking)
}

/// The last tree of the family compared with making, both by the library. Both refuse a table without a tree after marking it.
pub fn last_tree(m: usize, n: usize, kind: TableKind) -> f64 {
    let sheets: Vec<(Vec<u8>, u64)> = sheets(19, m, n, kind)
        .into_iter()
        .map(|sheet| {
            let size = sitgurp::Family::of(&sheet).expect("a good sheet").size();
            (sheet, size.saturating_sub(1))
        })
        .collect();
    let (mut cells, mut marks) = (vec![0; sitgurp::MOST_CELLS], vec![0; sitgurp::MOST_MARKS]);
    let mut output = vec![0; sitgurp::MOST_NET_SHEET];
    let last = least(&sheets, |(sheet, number)| {
        let sheet = black_box(sheet);
        black_box(sitgurp::family_tree(
            sheet,
            *number,
            &mut cells,
            &mut marks,
            &mut output,
        ))
        .ok();
    });
    let settled = least(&sheets, |(sheet, _)| {
        let sheet = black_box(sheet);
        black_box(sitgurp::make(sheet, &mut cells, &mut marks, &mut output)).ok();
    });
    ratio(last, settled)
}

/// What the library's time is compared with: one of two readers in plain Rust, or the second implementation.
#[derive(Clone, Copy, PartialEq, Eq)]
pub enum Against {
    /// Reading field by field; for checking, plain Rust with the faster reader.
    Plain,
    /// Reading by whole rows.
    PlainRows,
    Second,
}

/// Reading alone: without a cells buffer, making reads the whole sheet and then refuses it with 13.
pub fn reading(m: usize, n: usize, kind: TableKind, against: Against) -> f64 {
    let sheets = sheets(13, m, n, kind);
    let proved = least(&sheets, |sheet| {
        black_box(sitgurp::make(black_box(sheet), &mut [], &mut [], &mut [])).ok();
    });
    for sheet in &sheets {
        let (fields, rows) = (
            plain_sheets::read_table_by_fields(sheet),
            plain_sheets::read_table(sheet),
        );
        assert!(fields.is_some() && fields == rows, "both read alike");
    }
    let other = match against {
        Against::Plain => least(&sheets, |sheet| {
            black_box(plain_sheets::read_table_by_fields(black_box(sheet))).expect("a good sheet");
        }),
        Against::PlainRows => least(&sheets, |sheet| {
            black_box(plain_sheets::read_table(black_box(sheet))).expect("a good sheet");
        }),
        Against::Second => least(&sheets, |sheet| {
            black_box(reference::make(black_box(sheet), &mut [], &mut [], &mut [])).ok();
        }),
    };
    ratio(proved, other)
}

/// The layout of a sheet before it is tidied.
#[derive(Clone, Copy, PartialEq, Eq)]
pub enum Laid {
    /// As a table sheet.
    Strictly,
    /// With its rows shuffled.
    Shuffled,
    /// With its rows shuffled and three spaces for each one.
    Aligned,
    /// With its rows shuffled and each field below its name.
    BelowNames,
}

/// A prime that divides no number of cells. Steps of this many rows shuffle the rows and visit each once.
const STRIDE: usize = 1237;

fn laid(sheet: &[u8], laid: Laid) -> Vec<u8> {
    let text = std::str::from_utf8(sheet).expect("ASCII");
    let lines: Vec<&str> = text.lines().collect();
    let (first, rows) = lines.split_at(3);
    let shuffled = (0..rows.len()).map(|k| rows[k * STRIDE % rows.len()]);
    let lines: Vec<&str> = match laid {
        Laid::Strictly => lines,
        _ => first.iter().copied().chain(shuffled).collect(),
    };
    let text = match laid {
        Laid::Aligned => lines.join("\n").replace(' ', "   "),
        Laid::BelowNames => below_names(&lines).join("\n"),
        _ => lines.join("\n"),
    };
    (text + "\n").into_bytes()
}

/// Pads each field of a row to the width of its name, and adds one space.
fn below_names(lines: &[&str]) -> Vec<String> {
    let widths: Vec<usize> = lines[2].split(' ').map(str::len).collect();
    let padded = |line: &&str| {
        let fields = line.split(' ').zip(&widths);
        let padded = fields.map(|(field, &width)| format!("{field:width$} "));
        padded.collect::<String>().trim_end().to_string()
    };
    let first = lines[..3].iter().map(|line| line.to_string());
    first.chain(lines[3..].iter().map(padded)).collect()
}

/// Tidying a table sheet with this layout compared with reading it strictly, both by the library.
pub fn tidying(m: usize, n: usize, kind: TableKind, how: Laid) -> f64 {
    let sheets = sheets(20, m, n, kind);
    let loose: Vec<Vec<u8>> = sheets.iter().map(|sheet| laid(sheet, how)).collect();
    let mut cells = vec![0; sitgurp::MOST_CELLS];
    let mut output = vec![0; sitgurp::MOST_TABLE_SHEET];
    for (sheet, loose) in sheets.iter().zip(&loose) {
        let length = sitgurp::tidy(loose, &mut cells, &mut output).expect("a loose sheet");
        assert_eq!(&output[..length], sheet, "the sheet that it was made of");
    }
    let tidying = least(&loose, |sheet| {
        black_box(sitgurp::tidy(black_box(sheet), &mut cells, &mut output)).ok();
    });
    let reading = least(&sheets, |sheet| {
        black_box(sitgurp::make(black_box(sheet), &mut [], &mut [], &mut [])).ok();
    });
    ratio(tidying, reading)
}

/// Returns a table sheet with its own net or, if it has none, a net with the same header.
fn net_and_table(sheet: Vec<u8>, generator: &mut Generator) -> (Vec<u8>, Vec<u8>) {
    let net = sitgurp::made(&sheet).unwrap_or_else(|_| {
        let (header, _) = read_table_sheet(&sheet).expect("a good sheet");
        print_net_sheet(&header, &generator.net_of_all_inputs(header.m, header.n))
    });
    (net, sheet)
}

/// Keeping a table's own wiring compared with making, both by the library. Both refuse a table without a tree; its wiring is that of another net.
pub fn keeping(m: usize, n: usize, kind: TableKind) -> f64 {
    let mut generator = Generator::new(20);
    let sheets: Vec<(Vec<u8>, Vec<u8>)> = sheets(20, m, n, kind)
        .into_iter()
        .map(|sheet| net_and_table(sheet, &mut generator))
        .collect();
    for (net, table) in &sheets {
        match (sitgurp::made(table), sitgurp::kept(net, table)) {
            (Ok(made), kept) => assert_eq!(kept, Ok((made, Vec::new())), "kept as it was made"),
            (Err(_), kept) => assert_eq!(kept.expect_err("no tree").number, 23),
        }
    }
    let (mut cells, mut marks) = (vec![0; sitgurp::MOST_CELLS], vec![0; sitgurp::MOST_MARKS]);
    let mut output = vec![0; sitgurp::MOST_NET_SHEET];
    let keeping = least(&sheets, |(net, table)| {
        black_box(sitgurp::keep(
            black_box(net),
            table,
            &mut cells,
            &mut output,
        ))
        .ok();
    });
    let making = least(&sheets, |(_, table)| {
        let table = black_box(table);
        black_box(sitgurp::make(table, &mut cells, &mut marks, &mut output)).ok();
    });
    ratio(keeping, making)
}

/// Checks a net sheet against a table sheet. A table with a tree is checked to its last cell, any other up to the first difference.
pub fn checking(m: usize, n: usize, kind: TableKind, against: Against) -> f64 {
    let mut generator = Generator::new(14);
    let sheets = sheets(14, m, n, kind).into_iter();
    let sheets: Vec<(Vec<u8>, Vec<u8>)> = sheets
        .map(|sheet| net_and_table(sheet, &mut generator))
        .collect();
    let mut cells = vec![0; sitgurp::MOST_CELLS];
    for (net, table) in &sheets {
        let verdict = match sitgurp::check(net, table, &mut cells).expect("good sheets") {
            Verdict::Agree => None,
            Verdict::Differ(index) => Some(index),
        };
        let plain = plain_sheets::check(net, table, &mut cells);
        assert_eq!(plain, Some(verdict), "both say the same");
    }
    let proved = least(&sheets, |(net, table)| {
        black_box(sitgurp::check(black_box(net), table, &mut cells)).ok();
    });
    let other = match against {
        Against::Plain | Against::PlainRows => least(&sheets, |(net, table)| {
            black_box(plain_sheets::check(black_box(net), table, &mut cells));
        }),
        Against::Second => least(&sheets, |(net, table)| {
            black_box(reference::check(black_box(net), table, &mut cells)).ok();
        }),
    };
    ratio(proved, other)
}
