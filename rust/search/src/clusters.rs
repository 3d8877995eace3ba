//! A first tree near a table: wires are joined two by two, and for each pair the most similar columns are made alike, whatever rows
//! that changes. The pair that changes the fewest rows is joined first.

use crate::near_tree::{Gate, Tree};
use crate::random::Random;

/// How many rows of the table have each ink, for each value of each wire: `m` numbers per cell.
struct Tally {
    m: usize,
    sizes: Vec<usize>,
    wires: Vec<usize>,
    rows: Vec<u16>,
}

/// Two wires with the colours of their columns, and the number of rows that change.
struct Join {
    changed: u32,
    places: (usize, usize),
    colours: Vec<usize>,
}

/// Returns a tree near a table. `chance` says how much the choice of pairs is left to chance.
pub fn clustered(m: usize, n: usize, inks: &[u8], chance: f64, random: &mut Random) -> Tree {
    let mut tally = Tally::of(m, n, inks);
    let mut tree = Tree {
        m,
        n,
        gates: Vec::new(),
    };
    while tally.sizes.len() > 1 {
        let join = tally.best_join(chance, random);
        let (first, second) = join.places;
        let mut digits = vec![0; m * m];
        for (column, &colour) in join.colours.iter().enumerate() {
            let (a, b) = (column / tally.sizes[second], column % tally.sizes[second]);
            digits[a * m + b] = colour as u8;
        }
        let (left, right) = (tally.wires[first], tally.wires[second]);
        tree.gates.push(Gate {
            left,
            right,
            digits,
        });
        tally = tally.joined(&join, n + tree.gates.len() - 1);
    }
    tree
}

impl Tally {
    fn of(m: usize, n: usize, inks: &[u8]) -> Tally {
        let mut rows = vec![0; inks.len() * m];
        for (index, &ink) in inks.iter().enumerate() {
            rows[index * m + usize::from(ink)] = 1;
        }
        Tally {
            m,
            sizes: vec![m; n],
            wires: (0..n).collect(),
            rows,
        }
    }

    /// Returns the index of the first number of each cell, column by column.
    fn indices(&self, first: usize, second: usize) -> Vec<Vec<usize>> {
        let mut steps = vec![self.m; self.sizes.len()];
        for wire in (1..steps.len()).rev() {
            steps[wire - 1] = steps[wire] * self.sizes[wire];
        }
        let mut rows = vec![0];
        for (wire, &size) in self.sizes.iter().enumerate() {
            if wire != first && wire != second {
                let next =
                    |row: &usize| (0..size).map(|k| row + k * steps[wire]).collect::<Vec<_>>();
                rows = rows.iter().flat_map(next).collect();
            }
        }
        let mut columns = Vec::new();
        for a in 0..self.sizes[first] {
            for b in 0..self.sizes[second] {
                let offset = a * steps[first] + b * steps[second];
                columns.push(rows.iter().map(|row| row + offset).collect());
            }
        }
        columns
    }

    /// Returns the join that changes the fewest rows, up to chance.
    fn best_join(&self, chance: f64, random: &mut Random) -> Join {
        let mut best: Option<(f64, Join)> = None;
        for second in 1..self.sizes.len() {
            for first in 0..second {
                let join = self.join(first, second);
                let score = (f64::from(join.changed) + chance) * (1.0 + chance * random.part());
                if best.as_ref().is_none_or(|(least, _)| score < *least) {
                    best = Some((score, join));
                }
            }
        }
        best.expect("two wires or more").1
    }

    /// Makes the columns of two wires alike, the most similar first, until a wire can carry them. The last gate carries inks.
    fn join(&self, first: usize, second: usize) -> Join {
        let places = (first, second);
        let indices = self.indices(first, second);
        if self.sizes.len() == 2 {
            let cells = indices
                .iter()
                .map(|column| &self.rows[column[0]..][..self.m]);
            let most = |cell: &[u16]| (0..self.m).rev().max_by_key(|&ink| cell[ink]).unwrap_or(0);
            let colours = cells.map(most).collect();
            return Join {
                changed: 0,
                places,
                colours,
            };
        }
        let column = |cells: &Vec<usize>| {
            cells
                .iter()
                .flat_map(|&k| self.rows[k..][..self.m].to_vec())
                .collect()
        };
        let columns: Vec<Vec<u16>> = indices.iter().map(column).collect();
        let (changed, colours) = alike(columns, self.m);
        Join {
            changed,
            places,
            colours,
        }
    }

    fn joined(&self, join: &Join, wire: usize) -> Tally {
        let (first, second) = join.places;
        let indices = self.indices(first, second);
        let values = join.colours.iter().max().map_or(1, |most| most + 1);
        let mut rows = vec![0; indices[0].len() * values * self.m];
        for (column, &colour) in indices.iter().zip(&join.colours) {
            for (row, &index) in column.iter().enumerate() {
                for ink in 0..self.m {
                    rows[(row * values + colour) * self.m + ink] += self.rows[index + ink];
                }
            }
        }
        let without = |items: &[usize], last| {
            let kept = items
                .iter()
                .enumerate()
                .filter(|(k, _)| *k != first && *k != second);
            kept.map(|(_, item)| *item).chain([last]).collect()
        };
        Tally {
            m: self.m,
            sizes: without(&self.sizes, values),
            wires: without(&self.wires, wire),
            rows,
        }
    }
}

/// Returns how many rows change in a column with these numbers of inks, if each cell takes its most frequent one.
fn minority(column: &[u16], other: &[u16], m: usize) -> u32 {
    let cells = column.chunks(m).zip(other.chunks(m));
    let changed = cells.map(|(a, b)| {
        let (mut all, mut most) = (0, 0);
        for (a, b) in a.iter().zip(b) {
            all += a + b;
            most = most.max(a + b);
        }
        u32::from(all - most)
    });
    changed.sum()
}

/// Returns a colour for each column, at most `m`, and how many more rows change.
fn alike(mut columns: Vec<Vec<u16>>, m: usize) -> (u32, Vec<usize>) {
    let count = columns.len();
    let none = vec![0; columns[0].len()];
    let mut own: Vec<u32> = columns
        .iter()
        .map(|column| minority(column, &none, m))
        .collect();
    let before: u32 = own.iter().sum();
    let mut heads: Vec<usize> = (0..count).collect();
    let mut live: Vec<usize> = (0..count).collect();
    let mut more = vec![vec![0; count]; count];
    for b in 1..count {
        for a in 0..b {
            more[a][b] = minority(&columns[a], &columns[b], m) - own[a] - own[b];
        }
    }
    while live.len() > m {
        let pairs = live.iter().flat_map(|&b| {
            live.iter()
                .take_while(move |&&a| a < b)
                .map(move |&a| (a, b))
        });
        let (a, b) = pairs.min_by_key(|&(a, b)| more[a][b]).expect("two columns");
        let gone = std::mem::take(&mut columns[b]);
        for (to, rows) in columns[a].iter_mut().zip(gone) {
            *to += rows;
        }
        own[a] += own[b] + more[a][b];
        live.retain(|&column| column != b);
        for head in heads.iter_mut().filter(|head| **head == b) {
            *head = a;
        }
        for &c in live.iter().filter(|&&c| c != a) {
            let (low, high) = (a.min(c), a.max(c));
            more[low][high] = minority(&columns[low], &columns[high], m) - own[low] - own[high];
        }
    }
    let after: u32 = live.iter().map(|&column| own[column]).sum();
    let colour = |head: &usize| live.iter().position(|column| column == head).unwrap_or(0);
    (after - before, heads.iter().map(colour).collect())
}
