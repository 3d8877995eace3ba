//! What is written is read back the same, for nets and tables of every size.

use formats::{
    blif, blif_mv, csv, kind, net_of_blif, pla, table_of_blif, table_of_pla, Kind, Read,
};
use reference::allowed_sizes;
use reference::generate::{Generator, TableKind};
use sitgurp::{Net, Table};

fn unchanged<S>(sheet: S) -> Read<S> {
    Read {
        sheet,
        renamed: Vec::new(),
        notes: Vec::new(),
    }
}

/// Nets of any wiring, with inputs that stay unused: the sheet comes back byte for byte.
#[test]
fn nets_of_every_size() {
    let mut generator = Generator::new(43);
    for (m, n) in allowed_sizes() {
        for _ in 0..6 {
            let net = Net::read(&generator.net_sheet(m as usize, n as usize)).expect("a net");
            let mut texts = vec![blif_mv(&net, "tree")];
            texts.extend(blif(&net, "tree"));
            assert_eq!(texts.len(), if m == 2 { 2 } else { 1 });
            for text in texts {
                assert_eq!(kind(text.as_bytes()), Some(Kind::Blif));
                assert_eq!(
                    net_of_blif(text.as_bytes(), None),
                    Ok(unchanged(net.clone())),
                    "{text}"
                );
                assert_eq!(
                    table_of_blif(text.as_bytes(), None),
                    Ok(unchanged(net.table())),
                    "{text}"
                );
                // in the other order the net has other gate numbers, and the same table
                let turned = turned(&text);
                let read = net_of_blif(turned.as_bytes(), None).expect("a tree");
                assert_eq!(read.sheet.table(), net.table(), "{turned}");
            }
        }
    }
}

/// The tables of a model, the last one first.
fn turned(text: &str) -> String {
    let body = text.strip_suffix(".end\n").expect("an end");
    let parts: Vec<&str> = body.split_inclusive('\n').collect();
    let is_table = |line: &str| line.starts_with(".names") || line.starts_with(".table");
    let first = parts
        .iter()
        .position(|line| is_table(line))
        .expect("a table");
    let mut tables: Vec<String> = Vec::new();
    for line in &parts[first..] {
        match tables.last_mut() {
            Some(table) if !is_table(line) => *table += line,
            _ => tables.push(line.to_string()),
        }
    }
    tables.reverse();
    parts[..first].concat() + &tables.concat()
}

/// Tables of every kind, full and open.
#[test]
fn tables() {
    let mut generator = Generator::new(44);
    for (m, n) in allowed_sizes() {
        for kind in TableKind::ALL {
            let (m, n) = (m as usize, n as usize);
            let sheets = [
                generator.table_sheet(m, n, kind),
                generator.open_table_sheet(m, n, kind),
            ];
            for (k, sheet) in sheets.iter().enumerate() {
                let table = Table::read(sheet).expect("a table");
                assert_eq!(
                    sitgurp::tidied(csv(&table).replace(',', " ").as_bytes()).as_deref(),
                    Ok(&sheet[..])
                );
                let Some(text) = pla(&table) else {
                    assert!(m > 2);
                    continue;
                };
                let read = table_of_pla(text.as_bytes(), None).expect("a table");
                assert_eq!(
                    (&read.sheet, read.renamed.len(), read.notes.len()),
                    (&table, 0, k),
                    "{text}"
                );
                assert_eq!(formats::kind(text.as_bytes()), Some(Kind::Pla));
            }
        }
    }
}

/// Damaged files are refused, or read as a sheet that the library accepts and checks. None of them stops the program.
#[test]
fn damaged_files() {
    let mut generator = Generator::new(48);
    let (mut read, mut refused) = (0, 0);
    for round in 0..3_000 {
        let (m, n) = [(2, 3), (2, 5), (3, 3), (4, 2)][round % 4];
        let net = Net::read(&generator.net_sheet(m, n)).expect("a net");
        let mut texts = vec![blif_mv(&net, "tree")];
        texts.extend(blif(&net, "tree"));
        texts.extend(pla(&net.table()));
        for text in texts {
            let mut text = text.into_bytes();
            for _ in 0..1 + generator.rng.below(3) {
                let (place, byte) = (
                    generator.rng.below(text.len()),
                    *generator.rng.pick(b"012-~ .\\#|\nabgx=(),{}!\xff"),
                );
                match generator.rng.below(3) {
                    0 => text[place] = byte,
                    1 => text.insert(place, byte),
                    _ => drop(text.remove(place)),
                }
            }
            let results = [
                net_of_blif(&text, None).is_ok(),
                table_of_blif(&text, None).is_ok(),
                table_of_pla(&text, None).is_ok(),
            ];
            // what has a net has a table
            assert!(
                results[1] || !results[0],
                "{}",
                String::from_utf8_lossy(&text)
            );
            read += usize::from(results[1] || results[2]);
            refused += usize::from(!results[1] && !results[2]);
        }
    }
    assert!(read > 200 && refused > 2_000, "{read} {refused}");
}
