//! Fillings, compared with all fillings that the library judges.

use reference::generate::{Generator, TableKind};
use search::{fill, fillings, with_inks, Filled, Filling, Ground, Wish};
use sitgurp::{Table, Verdict};
use std::time::Duration;

fn wish(shallow: bool, tell: &mut dyn FnMut(Duration)) -> Wish<'_> {
    Wish {
        shallow,
        time: None,
        tell,
    }
}

fn filled(table: &Table, shallow: bool) -> Filling {
    fill(table, wish(shallow, &mut |_| ()))
}

/// Returns the table with these inks; cells whose ink is `m` are open.
fn table(m: usize, n: usize, inks: &[u8]) -> Table {
    let names: Vec<String> = (0..n).map(|k| format!("i{k}")).collect();
    let mut inks = inks.iter().copied();
    Table::from_rule(m, &names, |_| inks.next().expect("an ink")).expect("a table")
}

/// Returns the inks of every filling with a tree, each with its fewest layers, the lowest inks first.
fn every(open: &Table) -> Vec<(Vec<u8>, usize)> {
    let (m, cells) = (open.levels() as u64, open.open());
    let count = fillings(open.levels(), cells.len()).expect("a number");
    let filling = |mut number: u64| {
        let mut inks = open.inks().to_vec();
        for &cell in cells.iter().rev() {
            inks[cell] = (number % m) as u8;
            number /= m;
        }
        let layers = with_inks(open, &inks)
            .expect("a table")
            .shallow()
            .ok()?
            .layers;
        Some((inks, layers))
    };
    (0..count).filter_map(filling).collect()
}

/// With few fillings the lowest inks are found, or the fewest layers if asked for, and the answer is 'impossible' exactly if there is none.
#[test]
fn few_fillings() {
    let mut generator = Generator::new(43);
    let (mut solved, mut impossible, mut counted) = (0, 0, 0);
    for round in 0..400 {
        let (m, n) = [(2, 3), (2, 4), (3, 3), (2, 5)][round % 4];
        let kind = [
            TableKind::OfNet,
            TableKind::Random,
            TableKind::OneInkChanged,
        ][round / 4 % 3];
        let mut inks = generator.table(m, n, kind).inks;
        for _ in 0..1 + round % 6 {
            let cell = generator.rng.below(inks.len());
            inks[cell] = m as u8;
        }
        let open = table(m, n, &inks);
        let all = every(&open);
        for shallow in [false, true] {
            let due = match shallow {
                true => all.iter().min_by_key(|(_, layers)| *layers),
                false => all.first(),
            };
            match (filled(&open, shallow), due) {
                (Filling::Found(found), Some((inks, layers))) => {
                    let Filled { table, net, every } = *found;
                    assert_eq!((table.inks(), every), (&inks[..], true), "{open}");
                    assert_eq!(net.check(&open), Ok(Verdict::Agree));
                    assert!(!shallow || net.layers() == *layers);
                    solved += 1;
                }
                (Filling::Impossible(ground), None) => {
                    impossible += 1;
                    counted += usize::from(ground == Ground::Counted);
                }
                _ => panic!("{open}"),
            }
        }
    }
    assert!(
        solved > 200 && impossible > 100 && counted > 20 && counted < impossible,
        "{solved} {impossible} {counted}"
    );
}

/// For a tree with many cells opened, a filling with a tree is found, and it agrees with the cells that are not open.
#[test]
fn many_fillings() {
    let mut generator = Generator::new(7);
    for (m, n) in [(2, 7), (3, 4), (4, 3), (5, 3), (9, 3)] {
        for percent in [20, 50] {
            let mut inks = generator.table(m, n, TableKind::OfNet).inks;
            for ink in &mut inks {
                if generator.rng.below(100) < percent {
                    *ink = m as u8;
                }
            }
            let open = table(m, n, &inks);
            for shallow in [false, true] {
                let Filling::Found(found) = filled(&open, shallow) else {
                    panic!("{open}");
                };
                let Filled { table, net, .. } = *found;
                assert!(table.is_full());
                assert_eq!(net.table(), table);
                assert_eq!(net.check(&open), Ok(Verdict::Agree));
            }
        }
    }
}

/// A table with no good filling and more fillings than are tried: it is not called impossible unless class counts show it, and the given time is
/// used.
#[test]
fn none_found() {
    let mut generator = Generator::new(5);
    let (mut impossible, mut not_found) = (0, 0);
    for round in 0..40 {
        let mut inks = generator.table(3, 4, TableKind::Random).inks;
        for _ in 0..20 + 2 * round {
            let cell = generator.rng.below(inks.len());
            inks[cell] = 3;
        }
        let open = table(3, 4, &inks);
        match filled(&open, false) {
            Filling::Impossible(ground) => {
                assert_eq!(ground, Ground::Counted);
                impossible += 1;
            }
            Filling::NotFound { attempts, .. } => {
                assert!(attempts > 64);
                let mut told = 0;
                let mut tell = |_: Duration| told += 1;
                let time = Some(Duration::from_millis(30));
                let again = fill(
                    &open,
                    Wish {
                        time,
                        ..wish(false, &mut tell)
                    },
                );
                assert!(!matches!(again, Filling::Impossible(_)));
                assert!(told > 1);
                not_found += 1;
            }
            Filling::Found(found) => assert_eq!(found.net.check(&open), Ok(Verdict::Agree)),
        }
    }
    assert!(impossible > 5 && not_found > 0, "{impossible} {not_found}");
}
