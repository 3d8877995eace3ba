//! Nets, tables and "Value of a net".
//!
//! An assignment is the list of its levels, in the order of line 3.

/// What a gate's left or right refers to. Gates are numbered from 1, as on a
/// net sheet; inputs by their place in line 3, from 0.
#[derive(Clone, Copy, Debug, PartialEq, Eq)]
pub enum Wire {
    Input(usize),
    Gate(usize),
}

/// One gate line. In the digits left's level changes slowest.
#[derive(Clone, Debug, PartialEq, Eq)]
pub struct Gate {
    pub left: Wire,
    pub right: Wire,
    pub digits: Vec<u8>,
}

/// The gate lines of a net over `m` levels and `n` inputs, "from 1 to n − 1"
/// of them; the last gate is the output. "Inputs may stay unused."
#[derive(Clone, Debug, PartialEq, Eq)]
pub struct Net {
    pub m: usize,
    pub n: usize,
    pub gates: Vec<Gate>,
}

/// An ink for every assignment, in index order. "Some assignments cannot occur": such
/// a cell is left open, and "holds m for it".
#[derive(Clone, Debug, PartialEq, Eq)]
pub struct Table {
    pub m: usize,
    pub n: usize,
    pub inks: Vec<u8>,
}

/// Counts the listed inputs up by one, the last-listed fastest, and leaves the
/// others alone. Returns false after the last assignment of the listed inputs,
/// when all of them are back at 0.
pub fn count_up(levels: &mut [u8], listed: &[usize], m: usize) -> bool {
    for &input in listed.iter().rev() {
        levels[input] += 1;
        if usize::from(levels[input]) < m {
            return true;
        }
        levels[input] = 0;
    }
    false
}

/// Returns the place, from 0, of the listed inputs' levels in counting order.
pub fn place_in_count(levels: &[u8], listed: &[usize], m: usize) -> usize {
    let mut place = 0;
    for &input in listed {
        place = place * m + usize::from(levels[input]);
    }
    place
}

/// Returns all inputs, in the order of line 3.
pub fn all_inputs(n: usize) -> Vec<usize> {
    (0..n).collect()
}

impl Net {
    /// "A gate's value is its digit at (left's value · m + right's value). The
    /// net's value is its last gate's."
    pub fn value(&self, levels: &[u8]) -> u8 {
        let mut values: Vec<u8> = Vec::with_capacity(self.gates.len());
        for gate in &self.gates {
            let left = carried(gate.left, levels, &values);
            let right = carried(gate.right, levels, &values);
            values.push(gate.digits[left * self.m + right]);
        }
        *values.last().expect("every net has a gate")
    }

    /// Returns whether some gate refers to this input or gate.
    pub fn uses(&self, wire: Wire) -> bool {
        let mut gates = self.gates.iter();
        gates.any(|gate| gate.left == wire || gate.right == wire)
    }

    /// Returns the inputs that some gate refers to, in the order of line 3.
    pub fn used_inputs(&self) -> Vec<usize> {
        let inputs = (0..self.n).filter(|&input| self.uses(Wire::Input(input)));
        inputs.collect()
    }

    /// "The layers of a net are the most gates on a way from an input to the
    /// output."
    pub fn layers(&self) -> usize {
        let used = self.used_inputs().into_iter();
        let ways = used.map(|input| self.gates_on_the_way(input));
        ways.max().expect("every gate refers to something")
    }

    /// Returns how many gates are on the way from a used input to the output: the one that
    /// refers to the input, the one that refers to that gate, and so on. A gate
    /// refers to earlier ones, so they appear in this order.
    pub fn gates_on_the_way(&self, input: usize) -> usize {
        let mut end = Wire::Input(input);
        let mut passed = 0;
        for (number, gate) in (1..).zip(&self.gates) {
            if gate.left == end || gate.right == end {
                end = Wire::Gate(number);
                passed += 1;
            }
        }
        passed
    }

    /// "Its table lists the values over all assignments in index order."
    pub fn table(&self) -> Table {
        Table::of(self.m, self.n, |levels| self.value(levels))
    }
}

/// Returns the value on a wire, given the inputs' levels and the earlier gates' values.
fn carried(wire: Wire, levels: &[u8], values: &[u8]) -> usize {
    match wire {
        Wire::Input(input) => usize::from(levels[input]),
        Wire::Gate(number) => usize::from(values[number - 1]),
    }
}

impl Table {
    /// Returns the table of a rule from assignments to inks.
    pub fn of(m: usize, n: usize, rule: impl Fn(&[u8]) -> u8) -> Table {
        let inputs = all_inputs(n);
        let mut levels = vec![0; n];
        let mut inks = Vec::new();
        loop {
            inks.push(rule(&levels));
            if !count_up(&mut levels, &inputs, m) {
                return Table { m, n, inks };
            }
        }
    }

    /// Returns whether the cell with this index is left open.
    pub fn is_open(&self, index: usize) -> bool {
        usize::from(self.inks[index]) == self.m
    }

    /// Returns the lowest index of an open cell, or nothing for a full table.
    pub fn first_open(&self) -> Option<usize> {
        (0..self.inks.len()).find(|&index| self.is_open(index))
    }

    /// Returns the ink at an assignment: "a cell's index is its line's place in that
    /// count", all inputs counted, the last fastest.
    pub fn ink(&self, levels: &[u8]) -> u8 {
        let mut index = 0;
        for &level in levels {
            index = index * self.m + usize::from(level);
        }
        self.inks[index]
    }
}
