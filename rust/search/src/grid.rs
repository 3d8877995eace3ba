//! A table over wires. At first every input is a wire. Joining two wires by a gate gives a smaller table, in which columns that the gate
//! makes alike are one column.

/// An open cell.
pub const OPEN: u8 = u8::MAX;

#[derive(Clone)]
pub struct Grid {
    /// How many values each wire has. The last wire changes fastest.
    pub sizes: Vec<usize>,
    /// The inputs below each wire: bit i is input i.
    pub groups: Vec<usize>,
    /// The inks, or `OPEN`.
    pub inks: Vec<u8>,
    /// The index, in `inks`, of each cell of the table itself.
    pub places: Vec<usize>,
}

impl Grid {
    /// Returns the grid of a table whose open cells hold `levels`.
    pub fn of(levels: usize, inputs: usize, cells: &[u8]) -> Grid {
        let ink = |&ink: &u8| if usize::from(ink) < levels { ink } else { OPEN };
        Grid {
            sizes: vec![levels; inputs],
            groups: (0..inputs).map(|input| 1 << input).collect(),
            inks: cells.iter().map(ink).collect(),
            places: (0..cells.len()).collect(),
        }
    }

    /// Returns what one step of each wire adds to an index.
    fn steps(&self) -> Vec<usize> {
        let mut steps = vec![1; self.sizes.len()];
        for wire in (1..steps.len()).rev() {
            steps[wire - 1] = steps[wire] * self.sizes[wire];
        }
        steps
    }

    /// Returns the indices of the cells in which two wires have the value 0.
    fn rows(&self, first: usize, second: usize, steps: &[usize]) -> Vec<usize> {
        let mut rows = vec![0];
        for (wire, &size) in self.sizes.iter().enumerate() {
            if wire != first && wire != second {
                let step =
                    |row: &usize| (0..size).map(|k| row + k * steps[wire]).collect::<Vec<_>>();
                rows = rows.iter().flat_map(step).collect();
            }
        }
        rows
    }

    /// Returns the columns of two wires: for each pair of values, the inks over all values of the other wires.
    pub fn columns(&self, first: usize, second: usize) -> Vec<Vec<u8>> {
        let steps = self.steps();
        let rows = self.rows(first, second, &steps);
        let mut columns = Vec::with_capacity(self.sizes[first] * self.sizes[second]);
        for a in 0..self.sizes[first] {
            for b in 0..self.sizes[second] {
                let offset = a * steps[first] + b * steps[second];
                columns.push(rows.iter().map(|row| self.inks[row + offset]).collect());
            }
        }
        columns
    }

    /// Returns the grid in which a gate joins two wires. `colours` has the gate's value for each of their columns; columns of one value do not
    /// conflict. The new wire is the last one.
    pub fn joined(&self, first: usize, second: usize, colours: &[usize]) -> Grid {
        let steps = self.steps();
        let rows = self.rows(first, second, &steps);
        let values = colours.iter().max().map_or(1, |most| most + 1);
        let mut to = vec![0; self.inks.len()];
        let mut inks = vec![OPEN; rows.len() * values];
        for (k, row) in rows.iter().enumerate() {
            for (column, &colour) in colours.iter().enumerate() {
                let (a, b) = (column / self.sizes[second], column % self.sizes[second]);
                let index = row + a * steps[first] + b * steps[second];
                to[index] = k * values + colour;
                if self.inks[index] != OPEN {
                    inks[to[index]] = self.inks[index];
                }
            }
        }
        let mut grid = Grid {
            sizes: without(&self.sizes, first, second),
            groups: without(&self.groups, first, second),
            inks,
            places: self.places.iter().map(|&place| to[place]).collect(),
        };
        grid.sizes.push(values);
        grid.groups.push(self.groups[first] | self.groups[second]);
        grid
    }

    /// Returns an ink for each cell of the table; 0 if the grid leaves it open.
    pub fn filled(&self) -> Vec<u8> {
        let ink = |&place: &usize| match self.inks[place] {
            OPEN => 0,
            ink => ink,
        };
        self.places.iter().map(ink).collect()
    }
}

/// Returns the items except two of them.
fn without(items: &[usize], first: usize, second: usize) -> Vec<usize> {
    let kept = items
        .iter()
        .enumerate()
        .filter(|(k, _)| *k != first && *k != second);
    kept.map(|(_, item)| *item).collect()
}
