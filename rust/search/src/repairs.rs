//! All changes of one row, or of two, with which a table has a tree.
//!
//! A changed row removes at most one class from a group. So a tree after k changed rows consists of groups with at most k classes too many,
//! and some group of it has too many. There are few ways to remove a class from a group:
//!
//! - one row: a column that is a class of its own becomes equal to another, from which it differs in one row;
//! - two rows: such a column differs from another in two rows; two columns, each a class of its own, both change to a common one; or the two
//!   columns of a class each become equal to another class.
//!
//! Each way is tried: the library counts the classes, and marks every changed table.

use crate::counts::{offsets, subsets};
use std::collections::BTreeSet;

/// A cell with its new ink.
pub type Cell = (usize, u8);

/// A table's cells, and the calls of the library on them.
pub struct Repairs {
    m: usize,
    n: usize,
    cells: Vec<u8>,
    /// How many tables the library may still mark or count.
    left: usize,
}

/// All changes of one size, or that the search was too much work.
pub enum Found {
    /// Every change of this many rows, by index; empty if there is none.
    All(Vec<Vec<Cell>>),
    TooMuch,
}

impl Repairs {
    /// Prepares a full table; `most` bounds how many tables are marked or counted.
    pub fn of(m: usize, n: usize, cells: &[u8], most: usize) -> Repairs {
        Repairs {
            m,
            n,
            cells: cells.to_vec(),
            left: most,
        }
    }

    /// Lists the changes of one row that give a tree.
    pub fn of_one_row(&mut self) -> Found {
        let mut found = BTreeSet::new();
        for cell in self.single(1) {
            if self.left == 0 {
                return Found::TooMuch;
            }
            if self.has_tree_with(&[cell]) {
                found.insert(vec![cell]);
            }
        }
        Found::All(found.into_iter().collect())
    }

    /// Lists the changes of two rows that give a tree, if no change of one row does.
    pub fn of_two_rows(&mut self) -> Found {
        let mut found = BTreeSet::new();
        for pair in self.double() {
            if self.left == 0 {
                return Found::TooMuch;
            }
            if self.has_tree_with(&pair) {
                found.insert(in_order(pair));
            }
        }
        for first in self.single(2) {
            let before = std::mem::replace(&mut self.cells[first.0], first.1);
            let seconds = self.single(1);
            for second in seconds {
                if second.0 != first.0 && self.has_tree_with(&[second]) {
                    found.insert(in_order([first, second]));
                }
            }
            self.cells[first.0] = before;
            if self.left == 0 {
                return Found::TooMuch;
            }
        }
        Found::All(found.into_iter().collect())
    }

    /// Asks the library whether the table has a tree after a change.
    fn has_tree_with(&mut self, change: &[Cell]) -> bool {
        self.left = self.left.saturating_sub(1);
        let mut cells = self.cells.clone();
        for &(index, ink) in change {
            cells[index] = ink;
        }
        sitgurp::marking(self.m, self.n, &cells, &mut [0; sitgurp::MOST_MARKS]) == Ok(2)
    }

    /// Lists the groups with too many classes that are in some tree of groups with at most `over` too many.
    fn crowded(&mut self, over: usize) -> Vec<usize> {
        self.left = self.left.saturating_sub(1);
        let all = (1 << self.n) - 1;
        let classes =
            |group| sitgurp::multiplicity(self.m, self.n, &self.cells, group).unwrap_or(usize::MAX);
        let counts: Vec<usize> = (0..=all)
            .map(|group| if group == 0 { 0 } else { classes(group) })
            .collect();
        let mut is_tree = vec![false; all + 1];
        for group in 1..=all {
            let fits = counts[group] <= self.m + over;
            is_tree[group] = group.is_power_of_two()
                || fits && splits(group).any(|(a, b)| is_tree[a] && is_tree[b]);
        }
        let mut is_used = vec![false; all + 1];
        is_used[all] = is_tree[all];
        for group in (1..=all).rev().filter(|group| !group.is_power_of_two()) {
            if is_used[group] {
                for (a, b) in splits(group).filter(|&(a, b)| is_tree[a] && is_tree[b]) {
                    is_used[a] = true;
                    is_used[b] = true;
                }
            }
        }
        (1..=all)
            .filter(|&group| is_used[group] && counts[group] > self.m)
            .collect()
    }

    /// Lists the changes of one row that remove a class from a group with at most `over` too many.
    fn single(&mut self, over: usize) -> BTreeSet<Cell> {
        let mut found = BTreeSet::new();
        for group in self.crowded(over) {
            let matrix = Matrix::of(self, group);
            for (x, y) in matrix.singles() {
                if let [row] = matrix.apart(x, y, 1)[..] {
                    found.insert(matrix.cell(row, x, matrix.ink(row, y)));
                }
            }
        }
        found
    }

    /// Lists the changes of two rows that together, but not alone, remove a class from a group with one too many.
    fn double(&mut self) -> BTreeSet<[Cell; 2]> {
        let mut found = BTreeSet::new();
        for group in self.crowded(2) {
            let matrix = Matrix::of(self, group);
            if matrix.classes.len() == self.m + 1 {
                matrix.moved_by_two(&mut found);
                matrix.met(self.m, &mut found);
                matrix.both_moved(&mut found);
            }
        }
        found
    }
}

fn in_order(pair: [Cell; 2]) -> Vec<Cell> {
    let mut pair = pair.to_vec();
    pair.sort();
    pair
}

/// Lists the ways to split a group in two.
fn splits(group: usize) -> impl Iterator<Item = (usize, usize)> {
    let first = group & group.wrapping_neg();
    let rest = group - first;
    subsets(rest)
        .filter(move |part| *part != rest)
        .map(move |part| (first | part, rest - part))
}

/// The columns of a group and their classes.
struct Matrix<'a> {
    cells: &'a [u8],
    columns: Vec<usize>,
    rows: Vec<usize>,
    /// The columns of each class.
    classes: Vec<Vec<usize>>,
}

impl<'a> Matrix<'a> {
    fn of(table: &'a Repairs, group: usize) -> Matrix<'a> {
        let mut matrix = Matrix {
            cells: &table.cells,
            columns: offsets(table.m, table.n, group),
            rows: offsets(table.m, table.n, (1 << table.n) - 1 - group),
            classes: Vec::new(),
        };
        for column in 0..matrix.columns.len() {
            let same = |class: &Vec<usize>| matrix.apart(class[0], column, 0).is_empty();
            match matrix.classes.iter().position(same) {
                Some(class) => matrix.classes[class].push(column),
                None => matrix.classes.push(vec![column]),
            }
        }
        matrix
    }

    fn ink(&self, row: usize, column: usize) -> u8 {
        self.cells[self.rows[row] + self.columns[column]]
    }

    fn cell(&self, row: usize, column: usize, ink: u8) -> Cell {
        (self.rows[row] + self.columns[column], ink)
    }

    /// Lists the rows in which two columns differ, the first `most` + 1 of them.
    fn apart(&self, x: usize, y: usize, most: usize) -> Vec<usize> {
        let differ = |&row: &usize| self.ink(row, x) != self.ink(row, y);
        (0..self.rows.len()).filter(differ).take(most + 1).collect()
    }

    /// Lists the columns that are a class of their own, each with a column of each other class.
    fn singles(&self) -> impl Iterator<Item = (usize, usize)> + '_ {
        let single = self
            .classes
            .iter()
            .filter(|class| class.len() == 1)
            .map(|class| class[0]);
        single.flat_map(|x| self.others(x).map(move |y| (x, y)))
    }

    /// Lists a column of each class except that of `x`, which is the first of its class.
    fn others(&self, x: usize) -> impl Iterator<Item = usize> + '_ {
        self.classes
            .iter()
            .map(|class| class[0])
            .filter(move |&y| y != x)
    }

    /// Adds the changes in which a column that is its own class becomes equal to another that differs in two rows.
    fn moved_by_two(&self, found: &mut BTreeSet<[Cell; 2]>) {
        for (x, y) in self.singles() {
            if let [first, second] = self.apart(x, y, 2)[..] {
                found.insert([first, second].map(|row| self.cell(row, x, self.ink(row, y))));
            }
        }
    }

    /// Adds the changes in which two columns, each its own class, become equal by one changed row in each.
    fn met(&self, levels: usize, found: &mut BTreeSet<[Cell; 2]>) {
        let is_single = |y: usize| self.classes.iter().any(|class| class[..] == [y]);
        for (x, y) in self.singles().filter(|&(_, y)| is_single(y)) {
            match self.apart(x, y, 2)[..] {
                [row] => {
                    let inks = [self.ink(row, x), self.ink(row, y)];
                    for ink in (0..levels as u8).filter(|ink| !inks.contains(ink)) {
                        found.insert([self.cell(row, x, ink), self.cell(row, y, ink)]);
                    }
                }
                [first, second] => {
                    let of_x = self.cell(first, x, self.ink(first, y));
                    found.insert([of_x, self.cell(second, y, self.ink(second, x))]);
                }
                _ => {}
            }
        }
    }

    /// Adds the changes in which the two columns of a class each become equal to another class by one changed row.
    fn both_moved(&self, found: &mut BTreeSet<[Cell; 2]>) {
        for class in self.classes.iter().filter(|class| class.len() == 2) {
            let changes = |x: usize| {
                let near =
                    self.others(class[0])
                        .filter_map(move |y| match self.apart(x, y, 1)[..] {
                            [row] => Some(self.cell(row, x, self.ink(row, y))),
                            _ => None,
                        });
                near.collect::<Vec<Cell>>()
            };
            for first in changes(class[0]) {
                for second in changes(class[1]) {
                    found.insert([first, second]);
                }
            }
        }
    }
}
