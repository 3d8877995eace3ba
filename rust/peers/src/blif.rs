//! BLIF, BLIF-MV and PLA, as ABC reads and writes them.

use crate::tools::{abc, get, nets, put, spoiled, Tally};
use reference::generate::{Generator, TableKind};
use sitgurp::{Net, Row, Table};

/// How a net is written.
type Written = fn(&Net) -> String;

/// Counts the pairs of files that ABC calls equivalent, and those that it does not.
fn compared(pairs: &[(String, String)]) -> (usize, usize) {
    let commands: Vec<String> = pairs
        .iter()
        .map(|(one, other)| format!("cec {one} {other}"))
        .collect();
    let said = abc(&commands.join("\n"));
    let same = said.matches("Networks are equivalent").count();
    (same, said.matches("Networks are NOT EQUIVALENT").count())
}

/// Writes a pair of files for each net: the second of the net itself, the first of it or of a net that is spoiled.
fn pairs(
    nets: &[(&Net, &Net)],
    first: Written,
    ending: &str,
    second: fn(&Table) -> String,
) -> Vec<(String, String)> {
    let mut pairs = Vec::new();
    for (k, (one, other)) in nets.iter().enumerate() {
        let names = (format!("{k}.{ending}"), format!("{k}.pla"));
        put(&names.0, &first(one));
        put(&names.1, &second(&other.table()));
        pairs.push(names);
    }
    pairs
}

/// Nets of two levels: BLIF and BLIF-MV against the PLA of the table.
pub fn equivalent() -> Tally {
    let mut tally = Tally::default();
    let mut generator = Generator::new(1);
    let good = nets(&mut generator, &[2], 100);
    let bad: Vec<(Net, Net)> = good
        .iter()
        .filter_map(|net| Some((spoiled(net, &mut generator)?, net.clone())))
        .collect();
    let formats: [(&str, Written); 2] = [
        ("blif", |net| {
            formats::blif(net, "tree").expect("two levels")
        }),
        ("mv", |net| formats::blif_mv(net, "tree")),
    ];
    for (ending, written) in formats {
        let pla = |table: &Table| formats::pla(table).expect("two levels");
        let own: Vec<(&Net, &Net)> = good.iter().map(|net| (net, net)).collect();
        let (same, _) = compared(&pairs(&own, written, ending, pla));
        tally.line(&format!(".{ending} of nets of 2 levels and 2 to 12 inputs, equivalent to the PLA of the table"), same, own.len());
        let other: Vec<(&Net, &Net)> = bad.iter().map(|(one, other)| (one, other)).collect();
        let (_, differ) = compared(&pairs(&other, written, ending, pla));
        tally.line(
            &format!(".{ending} of nets with a wrong digit, not equivalent to it"),
            differ,
            other.len(),
        );
    }
    tally
}

/// Counts the bits of a level.
fn width(levels: usize) -> usize {
    (levels - 1).ilog2() as usize + 1
}

/// Lists the names that ABC gives the bits of a signal.
fn bits(name: &str, width: usize) -> Vec<String> {
    (0..width).map(|bit| format!("{name}[{bit}]")).collect()
}

/// Returns a level, its lowest bit first.
fn digits(level: u8, width: usize) -> String {
    (0..width)
        .map(|bit| if level >> bit & 1 == 1 { '1' } else { '0' })
        .collect()
}

/// Returns a table of 4 or 8 levels as a PLA of its bits.
fn pla_of_bits(table: &Table) -> String {
    let width = width(table.levels());
    let inputs: Vec<String> = table
        .names()
        .iter()
        .flat_map(|name| bits(name, width))
        .collect();
    let mut text = format!(
        ".i {}\n.o {width}\n.ilb {}\n.ob {}\n",
        inputs.len(),
        inputs.join(" "),
        bits("ink", width).join(" ")
    );
    for Row { levels, ink } in table.rows() {
        let levels: String = levels.iter().map(|&level| digits(level, width)).collect();
        text += &format!("{levels} {}\n", digits(ink, width));
    }
    text + ".e\n"
}

/// Nets of more levels: ABC writes each level in bits.
pub fn many_levels() -> Tally {
    let mut tally = Tally::default();
    let mut generator = Generator::new(2);
    let good = nets(&mut generator, &[4, 8], 20);
    let own: Vec<(&Net, &Net)> = good.iter().map(|net| (net, net)).collect();
    let written = |net: &Net| formats::blif_mv(net, "tree");
    let (same, _) = compared(&pairs(&own, written, "mv", pla_of_bits));
    tally.line(
        ".mv of nets of 4 and 8 levels, equivalent to a PLA of the bits of the table",
        same,
        own.len(),
    );
    let bad: Vec<(Net, Net)> = good
        .iter()
        .filter_map(|net| Some((spoiled(net, &mut generator)?, net.clone())))
        .collect();
    let other: Vec<(&Net, &Net)> = bad.iter().map(|(one, other)| (one, other)).collect();
    let (_, differ) = compared(&pairs(&other, written, "mv", pla_of_bits));
    tally.line(
        ".mv of nets with a wrong digit, not equivalent to it",
        differ,
        other.len(),
    );
    // bits that are no level are not compared
    let nets: Vec<Net> = nets(&mut generator, &[3, 5, 6, 7, 9], 10)
        .into_iter()
        .filter(|net| net.names().len() * width(net.levels()) <= 12)
        .collect();
    let same = nets.iter().filter(|net| rows_agree(net)).count();
    tally.line(".mv of nets of 3, 5, 6, 7 and 9 levels, the table read from the BLIF that ABC writes of it", same, nets.len());
    tally
}

/// Returns whether the BLIF that ABC writes of a net has the net's ink in every row.
fn rows_agree(net: &Net) -> bool {
    put("net.mv", &formats::blif_mv(net, "tree"));
    abc("read_blif_mv net.mv\nstrash\nwrite_blif net.blif");
    let text = String::from_utf8(get("net.blif")).expect("text");
    let width = width(net.levels());
    let table = net.table();
    (0..width).all(|bit| {
        // with one output all inputs stay, in their order
        let mut lines = text.lines();
        let one = lines
            .by_ref()
            .map(|line| match line.starts_with(".outputs") {
                true => format!(".outputs ink[{bit}]\n"),
                false => format!("{line}\n"),
            });
        let one: String = one.collect();
        let read = formats::table_of_blif(one.as_bytes(), None)
            .unwrap_or_else(|fault| panic!("{fault}\n{one}"))
            .sheet;
        table.rows().all(|row| {
            let levels: Vec<u8> = row
                .levels
                .iter()
                .flat_map(|level| (0..width).map(move |bit| level >> bit & 1))
                .collect();
            read.ink(&levels) == Some(row.ink >> bit & 1)
        })
    })
}

/// Reads what ABC writes: the table of a PLA after ABC has factored and mapped it.
pub fn read_back() -> Tally {
    let mut tally = Tally::default();
    let mut generator = Generator::new(3);
    let mut tables = Vec::new();
    for n in 3..=10 {
        for kind in TableKind::ALL {
            for _ in 0..4 {
                tables.push(Table::read(&generator.table_sheet(2, n, kind)).expect("a table"));
            }
        }
    }
    for (what, steps) in [
        ("one table (`read_pla`)", ""),
        ("factored (`fx`)", "fx\n"),
        ("gates of two inputs (`strash`)", "strash\n"),
        (
            "tables of at most six inputs (`if -K 6`)",
            "strash\nif -K 6\n",
        ),
    ] {
        let (mut same, mut nets) = (0, 0);
        let mut commands = String::new();
        for (k, table) in tables.iter().enumerate() {
            put(
                &format!("{k}.pla"),
                &formats::pla(table).expect("two levels"),
            );
            commands += &format!("read_pla {k}.pla\n{steps}write_blif {k}.blif\n");
        }
        abc(&commands);
        for (k, table) in tables.iter().enumerate() {
            let text = get(&format!("{k}.blif"));
            let read =
                formats::table_of_blif(&text, None).unwrap_or_else(|fault| panic!("{fault}"));
            same += usize::from(read.sheet.inks() == table.inks());
            nets += usize::from(
                formats::net_of_blif(&text, None)
                    .is_ok_and(|read| read.sheet.table().inks() == table.inks()),
            );
        }
        tally.line(
            &format!("{what}: the table is the same"),
            same,
            tables.len(),
        );
        println!(
            "    of these, a tree, and read as a net: {nets}; with a tree by the library: {}",
            tables
                .iter()
                .filter(|table| table.settled().is_ok())
                .count()
        );
    }
    tally
}
