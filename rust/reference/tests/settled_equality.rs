//! Demand 3: nets settle to equal bytes exactly when their tables are equal.

use crate::common::*;
use reference::allowed_sizes;
use reference::generate::Generator;
use reference::limits::MOST_NET_SHEET_BYTES;
use reference::net::{Gate, Net, Wire};
use reference::rng::Rng;
use reference::sheet::{print_net_sheet, Header};
use std::collections::HashMap;

/// Returns the value on a wire, from the output down to the inputs.
fn wire_value(net: &Net, wire: Wire, levels: &[usize]) -> usize {
    match wire {
        Wire::Input(input) => levels[input],
        Wire::Gate(number) => {
            let gate = &net.gates[number - 1];
            let left = wire_value(net, gate.left, levels);
            let right = wire_value(net, gate.right, levels);
            usize::from(gate.digits[left * net.m + right])
        }
    }
}

fn inks_of_net(net: &Net) -> Vec<u8> {
    let output = Wire::Gate(net.gates.len());
    inks_of(net.m, net.n, |levels| wire_value(net, output, levels))
}

/// Swaps left and right of one gate, and its digits accordingly.
fn swap_sides(net: &mut Net, rng: &mut Rng) {
    let m = net.m;
    let gate = rng.below(net.gates.len());
    let gate = &mut net.gates[gate];
    std::mem::swap(&mut gate.left, &mut gate.right);
    let old = gate.digits.clone();
    for u in 0..m {
        for v in 0..m {
            gate.digits[u * m + v] = old[v * m + u];
        }
    }
}

/// Renames the levels of one inner wire, at its gate and where it is read.
fn relabel(net: &mut Net, rng: &mut Rng) {
    let m = net.m;
    let chosen = rng.below(net.gates.len() - 1);
    let mut new_name: Vec<usize> = (0..m).collect();
    rng.shuffle(&mut new_name);
    for digit in &mut net.gates[chosen].digits {
        *digit = new_name[usize::from(*digit)] as u8;
    }
    let wire = Wire::Gate(chosen + 1);
    for reader in &mut net.gates {
        let old = reader.digits.clone();
        for u in 0..m {
            for v in 0..m {
                let new_u = if reader.left == wire { new_name[u] } else { u };
                let new_v = if reader.right == wire { new_name[v] } else { v };
                reader.digits[new_u * m + new_v] = old[u * m + v];
            }
        }
    }
}

/// Puts the gates in another order in which each refers to earlier ones only.
fn reorder(net: &mut Net, rng: &mut Rng) {
    let mut left: Vec<usize> = (1..=net.gates.len()).collect();
    let mut order: Vec<usize> = Vec::new();
    while !left.is_empty() {
        let placed = |wire: Wire| match wire {
            Wire::Input(_) => true,
            Wire::Gate(number) => order.contains(&number),
        };
        let ready: Vec<usize> = left
            .iter()
            .copied()
            .filter(|number| {
                let gate = &net.gates[number - 1];
                placed(gate.left) && placed(gate.right)
            })
            .collect();
        let next = *rng.pick(&ready);
        left.retain(|&number| number != next);
        order.push(next);
    }
    renumber(net, &order);
}

fn renumber(net: &mut Net, order: &[usize]) {
    let renamed = |wire: Wire| match wire {
        Wire::Input(_) => wire,
        Wire::Gate(old) => {
            let place = order.iter().position(|&number| number == old);
            Wire::Gate(place.expect("every gate is placed") + 1)
        }
    };
    let gates = order.iter().map(|number| {
        let gate = &net.gates[number - 1];
        Gate {
            left: renamed(gate.left),
            right: renamed(gate.right),
            digits: gate.digits.clone(),
        }
    });
    net.gates = gates.collect();
}

/// Changes the digits that no assignment reaches.
fn change_free_digits(net: &mut Net, rng: &mut Rng) {
    let (m, n) = (net.m, net.n);
    let mut changed = net.clone();
    for (gate, new) in net.gates.iter().zip(&mut changed.gates) {
        let mut reached = vec![false; m * m];
        for index in 0..m.pow(n as u32) {
            let levels = levels_of(index, m, n);
            let u = wire_value(net, gate.left, &levels);
            let v = wire_value(net, gate.right, &levels);
            reached[u * m + v] = true;
        }
        for (digit, reached) in new.digits.iter_mut().zip(reached) {
            if !reached {
                *digit = rng.level(m);
            }
        }
    }
    *net = changed;
}

/// Joins an unused input, if there is one, to the output by a gate that ignores
/// it.
fn hang_unused(net: &mut Net, rng: &mut Rng) {
    let inputs = 0..net.n;
    let unused: Vec<Wire> = inputs.map(Wire::Input).filter(|w| !net.uses(*w)).collect();
    if unused.is_empty() {
        return;
    }
    let m = net.m;
    net.gates.push(Gate {
        left: Wire::Gate(net.gates.len()),
        right: *rng.pick(&unused),
        digits: (0..m * m).map(|place| (place / m) as u8).collect(),
    });
}

/// Makes some steps that change the net but not its table.
fn rewire(net: &mut Net, rng: &mut Rng) {
    for _ in 0..12 {
        match rng.below(4) {
            0 => swap_sides(net, rng),
            1 if net.gates.len() > 1 => relabel(net, rng),
            2 => hang_unused(net, rng),
            _ => reorder(net, rng),
        }
    }
    change_free_digits(net, rng);
}

fn change_digit(net: &mut Net, rng: &mut Rng) {
    let gate = rng.below(net.gates.len());
    let digit = rng.below(net.m * net.m);
    net.gates[gate].digits[digit] = rng.level(net.m);
}

fn settled_net(header: &Header, net: &Net) -> Vec<u8> {
    settled(&print_net_sheet(header, net)).expect("a good net sheet")
}

fn sizes() -> impl Iterator<Item = (usize, usize)> {
    let sizes = allowed_sizes().into_iter();
    sizes.map(|(m, n)| (m as usize, n as usize))
}

/// Returns fewer rounds for many cells.
fn rounds(m: usize, n: usize) -> usize {
    (20_000 / m.pow(n as u32)).clamp(8, 100)
}

#[test]
fn rewired_nets_settle_to_equal_bytes() {
    let seed = 71;
    println!("seed {seed}");
    let mut generator = Generator::new(seed);
    let mut rewired_differently = 0;
    for (m, n) in sizes() {
        for _ in 0..rounds(m, n) {
            let header = generator.header(m, n);
            let net = generator.net(m, n);
            let mut other = net.clone();
            rewire(&mut other, &mut generator.rng);
            rewired_differently += usize::from(net != other);
            assert_eq!(inks_of_net(&net), inks_of_net(&other));
            assert_eq!(settled_net(&header, &net), settled_net(&header, &other));
        }
    }
    assert!(rewired_differently > 1_000);
}

#[test]
fn small_changes_settle_as_the_tables_tell() {
    let seed = 72;
    println!("seed {seed}");
    let mut generator = Generator::new(seed);
    let (mut equal, mut unequal) = (0, 0);
    for (m, n) in sizes() {
        for _ in 0..rounds(m, n) {
            let header = generator.header(m, n);
            let net = generator.net(m, n);
            let mut other = net.clone();
            change_digit(&mut other, &mut generator.rng);
            let same_table = inks_of_net(&net) == inks_of_net(&other);
            let same_bytes = settled_net(&header, &net) == settled_net(&header, &other);
            assert_eq!(same_bytes, same_table, "{net:?} {other:?}");
            equal += usize::from(same_table);
            unequal += usize::from(!same_table);
        }
    }
    println!("{equal} equal, {unequal} unequal");
    assert!(equal > 300 && unequal > 300);
}

/// Many nets over few tables: one settled sheet per table, one table per settled
/// sheet.
#[test]
fn one_settled_sheet_for_each_table() {
    let seed = 73;
    println!("seed {seed}");
    let mut generator = Generator::new(seed);
    for (m, n, nets) in [(2, 2, 300), (2, 3, 3_000), (2, 4, 10_000), (3, 3, 3_000)] {
        let header = generator.header(m, n);
        let mut by_table: HashMap<Vec<u8>, Vec<u8>> = HashMap::new();
        let mut by_sheet: HashMap<Vec<u8>, Vec<u8>> = HashMap::new();
        for _ in 0..nets {
            let net = generator.net(m, n);
            let table = inks_of_net(&net);
            let sheet = settled_net(&header, &net);
            let before = by_table.insert(table.clone(), sheet.clone());
            assert!(before.is_none_or(|before| before == sheet));
            let before = by_sheet.insert(sheet, table.clone());
            assert!(before.is_none_or(|before| before == table));
        }
        println!("{m} {n}: {nets} nets, {} tables", by_table.len());
        assert!(by_table.len() < nets && by_table.len() > 10);
    }
}

/// The sum modulo m and the constant: every wiring of all inputs computes them, so
/// every one settles to the same sheet; for the constant also those of some inputs.
#[test]
fn every_wiring_of_a_sum_settles_alike() {
    let seed = 74;
    println!("seed {seed}");
    let mut generator = Generator::new(seed);
    for (m, n) in sizes() {
        let header = generator.header(m, n);
        let sum: Vec<u8> = (0..m * m).map(|d| ((d / m + d % m) % m) as u8).collect();
        for (digits, all) in [(sum, true), (vec![1; m * m], false)] {
            let mut sheets = Vec::new();
            for _ in 0..3 {
                let mut net = match all {
                    true => generator.net_of_all_inputs(m, n),
                    false => generator.net(m, n),
                };
                for gate in &mut net.gates {
                    gate.digits = digits.clone();
                }
                sheets.push(settled_net(&header, &net));
            }
            assert_eq!(sheets[0], sheets[1], "{m} {n}");
            assert_eq!(sheets[0], sheets[2], "{m} {n}");
        }
    }
}

/// "A net with its own first three lines and its own table", which making writes
/// too, and which is settled itself.
#[test]
fn a_settled_sheet_is_a_net_with_the_table() {
    let seed = 75;
    println!("seed {seed}");
    let mut generator = Generator::new(seed);
    for (m, n) in sizes() {
        for _ in 0..rounds(m, n) {
            let header = generator.header(m, n);
            let net = generator.net(m, n);
            let sheet = print_net_sheet(&header, &net);
            let settled_sheet = settled_net(&header, &net);
            let front = |sheet: &[u8]| first_lines(sheet, 3).to_vec();
            assert_eq!(front(&settled_sheet), front(&sheet));
            let table = table_written(&settled_sheet).expect("a net sheet");
            let names: Vec<_> = header
                .names
                .iter()
                .map(|n| String::from_utf8_lossy(n))
                .collect();
            assert_eq!(table, table_sheet(m, &names.join(" "), &inks_of_net(&net)));
            assert_eq!(made(&table).as_ref(), Ok(&settled_sheet));
            assert_eq!(settled(&settled_sheet).as_ref(), Ok(&settled_sheet));
        }
    }
}

/// "The settled sheet's length, which is never over 512": with names of 8 bytes
/// and inputs that all matter the longest one has 328.
#[test]
fn the_longest_settled_sheet() {
    let mut longest = 0;
    for (m, n) in sizes() {
        let name = |input| format!("longna{input:02}").into_bytes();
        let names: Vec<Vec<u8>> = (0..n).map(name).collect();
        let names = String::from_utf8(names.join(&b' ')).expect("ASCII");
        let sheet = rule_sheet(m, &names, |levels| levels.iter().sum::<usize>() % m);
        longest = longest.max(made(&sheet).expect("a tree").len());
    }
    assert!(longest <= MOST_NET_SHEET_BYTES);
    assert_eq!(longest, 328);
}

fn first_lines(sheet: &[u8], count: usize) -> &[u8] {
    let mut ends = (0..sheet.len()).filter(|&place| sheet[place] == b'\n');
    &sheet[..=ends.nth(count - 1).expect("enough lines")]
}
