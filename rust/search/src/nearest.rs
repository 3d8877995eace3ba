//! The nearest table with a tree: the fewest changed rows that can be found.

use crate::clusters::clustered;
use crate::fill::with_inks;
use crate::near_tree::Tree;
use crate::random::Random;
use crate::repairs::{Found, Repairs};
use sitgurp::{Kind, Table};

/// A row whose ink is changed.
#[derive(Clone, Copy, Debug, PartialEq, Eq, PartialOrd, Ord)]
pub struct Change {
    pub index: usize,
    pub from: u8,
    pub to: u8,
}

/// Changes with which a table without a tree has one.
#[derive(Clone, Debug)]
pub struct Nearest {
    /// The ways found; all change equally many rows. There is at least one.
    pub ways: Vec<Vec<Change>>,
    /// No tree is possible with fewer changed rows than this. It is at least 1.
    pub at_least: usize,
    /// Whether `ways` has every change of this many rows.
    pub all: bool,
}

/// Tables of up to this many cells are searched for all changes of one row and of two.
pub const ALL_UP_TO: usize = 729;
/// The most calls of the library for a larger table.
const MOST_LOOKS: usize = 2_000;
/// How much work the search from several trees may take: cells times gates times levels.
const WORK: usize = 2_000_000;
/// The least number of trees it starts from.
const STARTS: usize = 6;

/// Returns the fewest changed rows that can be found for a full table without a tree. None if the table has a tree or open cells.
///
/// ```
/// let majority = |levels: &[u8]| u8::from(levels.iter().sum::<u8>() >= 2);
/// let table = sitgurp::Table::from_rule(2, &["a", "b", "c"], majority)?;
/// let nearest = search::nearest(&table).unwrap();
/// assert_eq!((nearest.at_least, nearest.ways.len(), nearest.all), (1, 6, true));
/// assert!(search::changed(&table, &nearest.ways[0]).settled().is_ok());
/// # Ok::<(), sitgurp::Refusal>(())
/// ```
pub fn nearest(table: &Table) -> Option<Nearest> {
    if table.settled().err()?.kind() != Kind::NoTree {
        return None;
    }
    let (m, n) = (table.levels(), table.names().len());
    // a changed row removes at most one class from a group
    let mut at_least = table.fewest_levels().ok()?.saturating_sub(m).max(1);
    let most = if table.inks().len() <= ALL_UP_TO {
        usize::MAX
    } else {
        MOST_LOOKS
    };
    let mut repairs = Repairs::of(m, n, table.inks(), most);
    while at_least <= 2 {
        let found = if at_least == 1 {
            repairs.of_one_row()
        } else {
            repairs.of_two_rows()
        };
        match found {
            Found::TooMuch => break,
            Found::All(ways) if ways.is_empty() => at_least += 1,
            Found::All(ways) => {
                let ways = ways
                    .iter()
                    .map(|way| way.iter().map(|&cell| change(table, cell)).collect());
                let ways: Vec<Vec<Change>> = ways.collect();
                return checked(
                    table,
                    Nearest {
                        ways,
                        at_least,
                        all: true,
                    },
                );
            }
        }
    }
    let inks = from_trees(m, n, table.inks());
    let cells = inks.iter().copied().enumerate();
    let ways = vec![cells
        .filter(|&(index, ink)| table.inks()[index] != ink)
        .map(|cell| change(table, cell))
        .collect()];
    checked(
        table,
        Nearest {
            ways,
            at_least,
            all: false,
        },
    )
}

fn change(table: &Table, (index, to): (usize, u8)) -> Change {
    let from = table.inks()[index];
    Change { index, from, to }
}

/// Returns the table with some rows changed.
///
/// # Panics
///
/// If a change has an index or an ink that the table does not have.
pub fn changed(table: &Table, changes: &[Change]) -> Table {
    let mut inks = table.inks().to_vec();
    for change in changes {
        inks[change.index] = change.to;
    }
    with_inks(table, &inks).expect("an ink below levels")
}

/// Drops every way whose table the library does not make. None if no way is left.
fn checked(table: &Table, mut nearest: Nearest) -> Option<Nearest> {
    nearest
        .ways
        .retain(|way| changed(table, way).settled().is_ok());
    (!nearest.ways.is_empty()).then_some(nearest)
}

/// Returns the inks of the nearest tree that a search from several trees finds.
fn from_trees(m: usize, n: usize, inks: &[u8]) -> Vec<u8> {
    let mut random = Random::new(1);
    let steps = (WORK / (inks.len() * n * m)).max(STARTS);
    let mut best: Option<(usize, Tree)> = None;
    for start in 0..steps.div_ceil(4).max(STARTS) {
        let chance = start as f64 / STARTS as f64;
        let mut tree = clustered(m, n, inks, chance.min(2.0), &mut random);
        let differing = tree.descend(inks);
        if best.as_ref().is_none_or(|(least, _)| differing < *least) {
            best = Some((differing, tree));
        }
    }
    let (mut least, mut tree) = best.expect("a start");
    for _ in 0..steps {
        let Some(mut other) = tree.swapped(&mut random) else {
            continue;
        };
        let differing = other.descend(inks);
        if differing <= least {
            (least, tree) = (differing, other);
        }
    }
    tree.inks()
}
