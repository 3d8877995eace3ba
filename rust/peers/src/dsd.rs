//! Which functions of two levels have a tree, by the library and by ABC's disjoint-support decomposition: a tree of two-input gates is a decomposition
//! in which no node is prime, for a prime node has three inputs or more, and AND and XOR of any number of inputs split into gates of two.

use crate::tools::{put, run, Tally};
use reference::rng::Rng;
use std::collections::BTreeMap;

/// A function: its kind, its inputs and its values, the first input slowest.
struct Function {
    kind: &'static str,
    inputs: usize,
    values: Vec<u8>,
}

/// How many functions of each kind and size are drawn.
const DRAWN: usize = 16_000;

/// All functions of four inputs; of five to eight inputs some of each kind.
fn functions() -> Vec<Function> {
    let mut all = Vec::new();
    for number in 0..1 << 16 {
        let values = (0..16).map(|index| (number >> index & 1) as u8).collect();
        all.push(Function {
            kind: "all",
            inputs: 4,
            values,
        });
    }
    let mut rng = Rng::new(6);
    for inputs in 5..=8 {
        let mut put = |kind, values| {
            all.push(Function {
                kind,
                inputs,
                values,
            })
        };
        for _ in 0..DRAWN {
            put("tree", tree(&mut rng, inputs, 0));
            let mut values = tree(&mut rng, inputs, 0);
            let cell = rng.below(values.len());
            values[cell] ^= 1;
            put("tree, one cell changed", values);
            put(
                "tree with one gate of three inputs",
                tree(&mut rng, inputs, 1),
            );
            put("three or four inputs matter", few(&mut rng, inputs));
        }
        for _ in 0..DRAWN / 8 {
            put("random", (0..1 << inputs).map(|_| rng.level(2)).collect());
        }
        // every symmetric function, with some inputs inverted
        for number in 0..1_usize << (inputs + 1) {
            let inverted = rng.below(1 << inputs);
            let value = |index: usize| (number >> (index ^ inverted).count_ones() & 1) as u8;
            put("symmetric", (0..1 << inputs).map(value).collect());
        }
    }
    all
}

/// Returns the values of a random tree. So many of its gates have three inputs, with any digits.
fn tree(rng: &mut Rng, inputs: usize, larger: usize) -> Vec<u8> {
    let cells = 1 << inputs;
    let wire = |input: usize| {
        (0..cells).map(move |index: usize| (index >> (inputs - 1 - input) & 1) as u8)
    };
    let mut wires: Vec<Vec<u8>> = (0..inputs).map(|input| wire(input).collect()).collect();
    let take = |rng: &mut Rng, wires: &mut Vec<Vec<u8>>| wires.swap_remove(rng.below(wires.len()));
    for _ in 0..larger {
        let joined = [0; 3].map(|_| take(rng, &mut wires));
        let digits: Vec<u8> = (0..8).map(|_| rng.level(2)).collect();
        wires.push(
            (0..cells)
                .map(|index| {
                    digits[usize::from(
                        4 * joined[0][index] + 2 * joined[1][index] + joined[2][index],
                    )]
                })
                .collect(),
        );
        let last = wires.len() - 1;
        let place = rng.below(wires.len());
        wires.swap(place, last);
    }
    while wires.len() > 1 {
        let joined = [0; 2].map(|_| take(rng, &mut wires));
        // mostly gates in which both inputs matter
        let digits = match rng.below(20) {
            0 => rng.below(16),
            _ => *rng.pick(&[1, 2, 4, 8, 6, 7, 9, 11, 13, 14]),
        };
        wires.push(
            (0..cells)
                .map(|index| (digits >> (2 * joined[0][index] + joined[1][index]) & 1) as u8)
                .collect(),
        );
    }
    wires.remove(0)
}

/// Returns a random function of three or four of the inputs.
fn few(rng: &mut Rng, inputs: usize) -> Vec<u8> {
    let mut chosen: Vec<usize> = (0..inputs).collect();
    rng.shuffle(&mut chosen);
    chosen.truncate(3 + rng.below(2));
    let digits: Vec<u8> = (0..16).map(|_| rng.level(2)).collect();
    let row = |index: usize| {
        chosen
            .iter()
            .fold(0, |row, input| 2 * row + (index >> input & 1))
    };
    (0..1 << inputs).map(|index| digits[row(index)]).collect()
}

/// Returns the function for ABC: hexadecimal, its last value first. ABC takes six inputs or more, so a smaller one is repeated.
fn hexadecimal(function: &Function) -> String {
    let bits = function
        .values
        .iter()
        .cycle()
        .take(function.values.len().max(64));
    let bits: Vec<u8> = bits.copied().collect();
    let digits = bits.chunks(4).rev().map(|four| {
        four.iter()
            .rev()
            .fold(0, |digit, bit| 2 * digit + u32::from(*bit))
    });
    digits
        .map(|digit| {
            char::from_digit(digit, 16)
                .expect("a digit")
                .to_ascii_uppercase()
        })
        .collect()
}

/// How many functions ABC gets at once.
const AT_ONCE: usize = 500;

/// ABC's decompositions of functions with the same number of inputs, in their order. Algorithm 3 has a fixed number of nodes. It is not asked about random
/// functions, and where it stops at another one, that has none, and ABC begins again after it.
fn decomposed(functions: &[&Function], algorithm: usize) -> Vec<Option<String>> {
    let mut all: Vec<Option<String>> = vec![None; functions.len()];
    let is_asked = |k: &usize| algorithm != 3 || functions[*k].kind != "random";
    let mut asked: Vec<usize> = (0..functions.len()).filter(is_asked).collect();
    while !asked.is_empty() {
        let now = asked.len().min(AT_ONCE);
        let lines = asked[..now]
            .iter()
            .map(|&k| hexadecimal(functions[k]) + "\n");
        put("functions", &lines.collect::<String>());
        // line by line, so that nothing is lost where it stops
        let command = format!("testdec -A {algorithm} -v functions");
        let (good, said) = run("stdbuf", &["-oL", "berkeley-abc", "-q", &command]);
        let formulas = said.lines().filter_map(|line| {
            let (number, formula) = line.split_once(" : ")?;
            number.trim().parse::<usize>().ok()?;
            Some(formula.trim().to_string())
        });
        let formulas: Vec<String> = formulas.collect();
        assert_eq!(
            good,
            formulas.len() == now,
            "an answer to each, or none to the next"
        );
        let done = formulas.len() + usize::from(!good);
        for (&k, formula) in asked.iter().zip(formulas) {
            all[k] = Some(formula);
        }
        asked.drain(..done);
    }
    all
}

/// Returns whether a formula of algorithm 3 has only AND and XOR: `CA(a,b,c)` is a prime node.
fn is_tree_3(formula: &str) -> bool {
    let bytes = formula.as_bytes();
    let is_prime =
        |pair: &[u8]| pair[1] == b'(' && (pair[0].is_ascii_digit() || pair[0].is_ascii_uppercase());
    !bytes.windows(2).any(is_prime)
}

/// Returns the same of algorithm 4: `<abc>` is a multiplexer, and `E8{abc}` another prime node.
fn is_tree_4(formula: &str) -> bool {
    !formula.contains(['<', '{'])
}

/// How many functions of a kind there are; with a tree by the library, by algorithm 3 and by algorithm 4; where algorithm 3 has no answer; and how often two
/// answers differ.
type Counts = [usize; 6];

pub fn trees() -> Tally {
    let all = functions();
    let mut counts: BTreeMap<(usize, &str), Counts> = BTreeMap::new();
    let mut tally = Tally::default();
    for inputs in 4..=8 {
        let functions: Vec<&Function> = all
            .iter()
            .filter(|function| function.inputs == inputs)
            .collect();
        let third = decomposed(&functions, 3);
        let fourth = decomposed(&functions, 4);
        for ((function, third), fourth) in functions.iter().zip(&third).zip(&fourth) {
            let mut marks = [0; sitgurp::MOST_MARKS];
            let mark = sitgurp::marking(2, inputs, &function.values, &mut marks).expect("cells");
            let own = mark == 2;
            let fourth = fourth.as_deref().expect("algorithm 4 has an answer to all");
            let (by_third, by_fourth) = (third.as_deref().map(is_tree_3), is_tree_4(fourth));
            let differ = by_fourth != own || by_third.is_some_and(|has| has != own);
            let count = counts.entry((inputs, function.kind)).or_default();
            let one = [
                true,
                own,
                by_third == Some(true),
                by_fourth,
                by_third.is_none(),
                differ,
            ];
            count
                .iter_mut()
                .zip(one)
                .for_each(|(count, one)| *count += usize::from(one));
            if differ && count[5] <= 3 {
                println!("{}: {own}, {third:?}, {fourth}", hexadecimal(function));
            }
        }
    }
    println!("| inputs | functions | number | with a tree: Sitgurp | ABC, algorithm 3 | ABC, algorithm 4 | no answer of algorithm 3 | different |");
    println!("|---|---|---|---|---|---|---|---|");
    let mut sum: Counts = [0; 6];
    let line = |inputs: &str, kind: &str, counts: &Counts| {
        let cells: Vec<String> = counts.iter().map(usize::to_string).collect();
        println!("| {inputs} | {kind} | {} |", cells.join(" | "));
    };
    for ((inputs, kind), counts) in &counts {
        line(&inputs.to_string(), kind, counts);
        sum.iter_mut()
            .zip(counts)
            .for_each(|(sum, count)| *sum += count);
    }
    line("4 to 8", "in all", &sum);
    tally.wrong += sum[5];
    tally
}
