//! Class counts of a table with open cells. Columns of a group that have different inks in some row are different in every filling. If any
//! two of k columns are different in this way, the group has at least k classes in every filling.

use crate::grid::OPEN;

/// Which groups may have no more classes than there are levels, and which of them can be in a tree.
pub struct Counts {
    /// Whether no `levels` + 1 columns were found that are different in every filling.
    possible: Vec<bool>,
}

impl Counts {
    /// Counts every group of a table; `OPEN` cells are open.
    pub fn of(levels: usize, inputs: usize, inks: &[u8]) -> Counts {
        let mut possible = vec![false; 1 << inputs];
        for (group, possible) in possible.iter_mut().enumerate().skip(1) {
            *possible = group.is_power_of_two() || !is_crowded(levels, inputs, inks, group);
        }
        Counts { possible }
    }

    /// Returns whether wires over these groups may be joined into a tree. If not, no filling has a tree that contains these groups.
    pub fn may_join(&self, groups: &[usize]) -> bool {
        let count = groups.len();
        let mut unions = vec![0; 1 << count];
        let mut trees = vec![false; 1 << count];
        for set in 1_usize..1 << count {
            let lowest = set.trailing_zeros() as usize;
            let rest = set & (set - 1);
            unions[set] = unions[rest] | groups[lowest];
            trees[set] = rest == 0
                || self.possible[unions[set]] && {
                    let mut parts = subsets(rest).filter(|part| *part != rest);
                    parts.any(|part| trees[part | 1 << lowest] && trees[rest & !part])
                };
        }
        trees[(1 << count) - 1]
    }

    /// Returns whether a gate may have this group.
    pub fn may_be(&self, group: usize) -> bool {
        self.possible[group]
    }
}

/// Lists the subsets of a set, the empty set first and the set itself last.
pub fn subsets(set: usize) -> impl Iterator<Item = usize> {
    let next = move |part: &usize| (*part != set).then(|| part.wrapping_sub(set) & set);
    std::iter::successors(Some(0), next)
}

/// Returns whether a group has more classes than levels in every filling, as far as a quick search can tell.
fn is_crowded(levels: usize, inputs: usize, inks: &[u8], group: usize) -> bool {
    let columns = offsets(levels, inputs, group);
    let rows = offsets(levels, inputs, (1 << inputs) - 1 - group);
    let differ = |a: usize, b: usize| {
        rows.iter().any(|row| {
            let (a, b) = (inks[a + row], inks[b + row]);
            a != b && a != OPEN && b != OPEN
        })
    };
    let starts = [0, columns.len() / 3, 2 * columns.len() / 3];
    starts.iter().any(|&start| {
        let mut different: Vec<usize> = Vec::new();
        for &column in columns[start..].iter().chain(&columns[..start]) {
            if different.iter().all(|&known| differ(known, column)) {
                different.push(column);
                if different.len() > levels {
                    return true;
                }
            }
        }
        false
    })
}

/// Lists what each assignment of a group adds to a cell's index; the first-listed input changes slowest.
pub fn offsets(levels: usize, inputs: usize, group: usize) -> Vec<usize> {
    let mut offsets = vec![0];
    for input in (0..inputs).filter(|input| group >> input & 1 == 1) {
        let step = levels.pow((inputs - 1 - input) as u32);
        let next = |offset: &usize| {
            (0..levels)
                .map(|level| offset + level * step)
                .collect::<Vec<_>>()
        };
        offsets = offsets.iter().flat_map(next).collect();
    }
    offsets
}
