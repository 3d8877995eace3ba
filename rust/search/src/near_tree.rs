//! A tree whose table is near a given one. It is changed gate by gate so that fewer rows differ.

use crate::random::Random;

/// A wiring with its gates' digits. Wires below `n` are inputs, and wire n + k is the output of gate k.
#[derive(Clone)]
pub struct Tree {
    pub m: usize,
    pub n: usize,
    pub gates: Vec<Gate>,
}

#[derive(Clone)]
pub struct Gate {
    pub left: usize,
    pub right: usize,
    pub digits: Vec<u8>,
}

/// The most rounds over all gates.
const ROUNDS: usize = 24;

impl Tree {
    /// Returns the value of every wire in every cell, wire by wire.
    fn values(&self) -> Vec<Vec<u8>> {
        let cells = self.m.pow(self.n as u32);
        let mut values = Vec::with_capacity(self.n + self.gates.len());
        for input in 0..self.n {
            let step = self.m.pow((self.n - 1 - input) as u32);
            values.push(
                (0..cells)
                    .map(|index| (index / step % self.m) as u8)
                    .collect(),
            );
        }
        for gate in &self.gates {
            let own = self.of_gate(gate, &values);
            values.push(own);
        }
        values
    }

    fn of_gate(&self, gate: &Gate, values: &[Vec<u8>]) -> Vec<u8> {
        let pairs = values[gate.left].iter().zip(&values[gate.right]);
        let digit = |(&a, &b): (&u8, &u8)| gate.digits[usize::from(a) * self.m + usize::from(b)];
        pairs.map(digit).collect()
    }

    /// Returns the inks that the tree gives.
    pub fn inks(&self) -> Vec<u8> {
        self.values().pop().unwrap_or_default()
    }

    /// Returns in how many rows the tree's inks differ from these.
    pub fn differing(&self, inks: &[u8]) -> usize {
        let own = self.inks();
        own.iter().zip(inks).filter(|(a, b)| a != b).count()
    }

    /// Chooses the digits of one gate after the other so that the fewest rows differ, until no gate can be improved. Returns how many differ.
    pub fn descend(&mut self, inks: &[u8]) -> usize {
        let mut least = self.differing(inks);
        for _ in 0..ROUNDS {
            for gate in (0..self.gates.len()).rev() {
                self.better(gate, inks);
            }
            let now = self.differing(inks);
            if now >= least {
                break;
            }
            least = now;
        }
        self.differing(inks)
    }

    /// Chooses the best digits of one gate while the others stay. A digit stays if no other is better.
    fn better(&mut self, gate: usize, inks: &[u8]) {
        let values = self.values();
        let (m, own) = (self.m, &self.gates[gate]);
        let outputs = self.outputs(gate, &values);
        let mut wrong = vec![0_u32; m * m * m];
        for (index, &ink) in inks.iter().enumerate() {
            let pair =
                usize::from(values[own.left][index]) * m + usize::from(values[own.right][index]);
            for digit in 0..m {
                wrong[pair * m + digit] += u32::from(outputs[index * m + digit] != ink);
            }
        }
        let digits = &mut self.gates[gate].digits;
        for (pair, digit) in digits.iter_mut().enumerate() {
            let wrong = &wrong[pair * m..][..m];
            for (other, rows) in wrong.iter().enumerate() {
                if *rows < wrong[usize::from(*digit)] {
                    *digit = other as u8;
                }
            }
        }
    }

    /// Returns the tree's ink in every cell for each value that a gate might have there.
    fn outputs(&self, gate: usize, values: &[Vec<u8>]) -> Vec<u8> {
        let (m, cells) = (self.m, values[0].len());
        let mut outputs: Vec<u8> = (0..cells * m).map(|k| (k % m) as u8).collect();
        let mut wire = self.n + gate;
        while let Some(parent) = self.parent(wire) {
            let Gate {
                left,
                right,
                digits,
            } = &self.gates[parent];
            for index in 0..cells {
                for output in &mut outputs[index * m..][..m] {
                    let pair = match *left == wire {
                        true => usize::from(*output) * m + usize::from(values[*right][index]),
                        false => usize::from(values[*left][index]) * m + usize::from(*output),
                    };
                    *output = digits[pair];
                }
            }
            wire = self.n + parent;
        }
        outputs
    }

    fn parent(&self, wire: usize) -> Option<usize> {
        self.gates
            .iter()
            .position(|gate| gate.left == wire || gate.right == wire)
    }

    /// Returns the tree with two subtrees swapped, if neither of the two chosen contains the other.
    pub fn swapped(&self, random: &mut Random) -> Option<Tree> {
        let wires = self.n + self.gates.len() - 1;
        let (a, b) = (random.below(wires), random.below(wires));
        let (first, second) = (self.parent(a)?, self.parent(b)?);
        if first == second || self.holds(a, b) || self.holds(b, a) {
            return None;
        }
        let mut tree = self.clone();
        for (gate, old, new) in [(first, a, b), (second, b, a)] {
            let gate = &mut tree.gates[gate];
            let side = if gate.left == old {
                &mut gate.left
            } else {
                &mut gate.right
            };
            *side = new;
        }
        Some(tree.in_order())
    }

    /// Returns whether a wire's subtree contains another wire.
    fn holds(&self, wire: usize, other: usize) -> bool {
        wire == other
            || wire >= self.n && {
                let gate = &self.gates[wire - self.n];
                self.holds(gate.left, other) || self.holds(gate.right, other)
            }
    }

    /// Returns the same tree with every gate after those that it refers to.
    fn in_order(&self) -> Tree {
        let mut gates = Vec::new();
        self.put(self.n + self.gates.len() - 1, &mut gates);
        Tree { gates, ..*self }
    }

    fn put(&self, wire: usize, gates: &mut Vec<Gate>) -> usize {
        if wire < self.n {
            return wire;
        }
        let gate = &self.gates[wire - self.n];
        let (left, right) = (self.put(gate.left, gates), self.put(gate.right, gates));
        let digits = gate.digits.clone();
        gates.push(Gate {
            left,
            right,
            digits,
        });
        self.n + gates.len() - 1
    }
}
