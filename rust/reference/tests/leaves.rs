//! Inputs that never matter: which inputs a settled net has as leaves, by hand and
//! at every size. Trees on the leaves are compared with every wiring in
//! `trees`, `shallow` and `family`.

use crate::common::*;
use reference::generate::{Generator, TableKind};
use reference::leaves::{leaves as leaves_of, matters};
use reference::net::Table;
use reference::sheet::{print_net_sheet, print_table_sheet, read_net_sheet, Header};
use reference::{allowed_sizes, fewest_levels, marking, Job};

fn assert_made(m: usize, names: &str, rule: impl Fn(&[usize]) -> usize, gates: &str) {
    let sheet = rule_sheet(m, names, rule);
    let net = net_sheet(m, names, gates);
    assert_eq!(made(&sheet), Ok(net.clone()), "{gates}");
    assert_eq!(settled(&net), Ok(net.clone()), "{gates}");
    assert_eq!(
        made_shallow(&sheet).map(|(net, _)| net),
        Ok(net.clone()),
        "{gates}"
    );
    assert_eq!(numbered(&sheet, 0), Ok(net), "{gates}");
}

/// "If fewer than two do, the first-listed others make up two."
#[test]
fn none_or_one_matters() {
    assert_made(2, "a b c", |_| 0, "a b 0000");
    assert_made(2, "a b c", |_| 1, "a b 1111");
    assert_made(2, "a b c", |x| x[0], "a b 0011");
    assert_made(2, "a b c", |x| x[1], "a b 0101");
    assert_made(2, "a b c", |x| 1 - x[2], "a c 1010");
    assert_made(3, "a b c", |x| 2 - x[0], "a b 222111000");
    assert_made(3, "z y x", |x| x[2] / 2, "z x 001001001");
    let last = "a l 0101";
    assert_made(2, "a b c d e f g h i j k l", |x| x[11], last);
}

#[test]
fn some_matter() {
    assert_made(2, "a b c", |x| x[1] ^ x[2], "b c 0110");
    assert_made(2, "a b c", |x| x[0] & x[2], "a c 0001");
    assert_made(2, "a b c d", |x| x[0] ^ x[1] ^ x[3], "b d 0110/a 1 0110");
    assert_made(
        2,
        "a b c d e",
        |x| (x[1] & x[3]) | x[4],
        "b d 0001/1 e 0111",
    );
}

/// At least two of three, on the three inputs that matter, has no tree; the place is that of the
/// marks, which cover every group.
#[test]
fn refusal_16_beside_idle_inputs() {
    let most = |x: &[usize]| usize::from(x.iter().sum::<usize>() >= 2);
    let sheet = rule_sheet(2, "a b c d", |x| most(&x[1..]));
    assert_eq!(made(&sheet), Err(of_neither(16, 0b1110)));
    assert_eq!(counted(&sheet), Ok(0));
    let mut marks = [9; 4];
    let inks = inks_of(2, 4, |x| most(&x[1..]));
    assert_eq!(marking(2, 4, &inks, &mut marks), Ok(1));
    let stuck: Vec<usize> = (0..16).filter(|&g| unpacked(&marks)[g] == 1).collect();
    assert_eq!(stuck, [0b1110, 0b1111]);
}

/// "Equal settling still means equal tables, unused inputs included": nets that use
/// different inputs settle to one sheet if their tables are equal.
#[test]
fn nets_of_other_inputs_settle_alike() {
    let names = "a b c d";
    let due = net_sheet(2, names, "b d 0110");
    for gates in [
        "b d 0110",
        "d b 0110",
        "d b 1001/a 1 1010",
        "a b 0101/1 d 0110",
        "b d 0110/a c 0110/1 2 0011",
        "c d 1010/1 b 1001",
    ] {
        assert_eq!(
            settled(&net_sheet(2, names, gates)),
            Ok(due.clone()),
            "{gates}"
        );
    }
    for gates in ["b c 0110", "b d 1001", "b d 0110/1 a 0110"] {
        assert_ne!(
            settled(&net_sheet(2, names, gates)),
            Ok(due.clone()),
            "{gates}"
        );
    }
}

/// What matters, and the leaves, decided by two cells at a time; a tree on the leaves
/// exists exactly when the whole group has mark 2.
#[test]
fn leaves_at_every_size() {
    let seed = 1_200;
    println!("seed {seed}");
    let mut generator = Generator::new(seed);
    let mut idle = 0;
    for (m, n) in allowed_sizes() {
        for kind in TableKind::ALL {
            let (m, n) = (m as usize, n as usize);
            let table = generator.table(m, n, kind);
            let due = mattering(m, n, &table.inks);
            for input in 0..n {
                assert_eq!(matters(&table, input), due >> input & 1 == 1);
            }
            assert_eq!(leaves_of(&table), leaves(m, n, &table.inks));
            idle += usize::from(due != (1 << n) - 1);
            let mut marks = vec![9; (1 << n) / 4];
            let whole = marking(m as u64, n as u64, &table.inks, &mut marks);
            let of_leaves = unpacked(&marks)[leaves_of(&table)];
            assert_eq!(whole, Ok(of_leaves));
        }
    }
    println!("{idle} tables have idle inputs");
    assert!(idle > 100);
}

/// A table with inputs that never matter is made like the table of the leaves alone,
/// with their names.
#[test]
fn made_as_the_table_of_the_leaves_alone() {
    let seed = 1_201;
    println!("seed {seed}");
    let mut generator = Generator::new(seed);
    let mut refused = 0;
    for _ in 0..120 {
        let (m, n) = generator.size();
        let header = generator.header(m, n);
        let kind = *generator.rng.pick(&TableKind::ALL);
        let table = generator.table(m, n, kind);
        let sheet = print_table_sheet(&header, &table);
        let (few_header, few) = on_leaves(&header, &table);
        let few_sheet = print_table_sheet(&few_header, &few);
        assert_eq!(counted(&sheet), counted(&few_sheet));
        assert_eq!(fewest_levels(&sheet), fewest_levels(&few_sheet));
        match (made(&sheet), made(&few_sheet)) {
            (Ok(net), Ok(few_net)) => {
                assert_eq!(gate_lines(&net), gate_lines(&few_net));
                let [net, few_net] =
                    [sheet, few_sheet].map(|sheet| made_shallow(&sheet).expect("a tree"));
                assert_eq!(gate_lines(&net.0), gate_lines(&few_net.0));
                assert_eq!(net.1, few_net.1);
            }
            (net, few_net) => {
                assert_eq!((number_of(&net), number_of(&few_net)), (16, 16));
                refused += 1;
            }
        }
    }
    println!("{refused} have no tree");
    assert!((20..100).contains(&refused));
}

fn number_of(answer: &Result<Vec<u8>, reference::Refusal>) -> u8 {
    answer.as_ref().expect_err("no tree").number
}

/// Returns the table of the leaves alone, the other inputs at 0.
fn on_leaves(header: &Header, table: &Table) -> (Header, Table) {
    let leaves = leaves(table.m, table.n, &table.inks);
    let kept: Vec<usize> = (0..table.n).filter(|i| leaves >> i & 1 == 1).collect();
    let names = kept.iter().map(|&i| header.names[i].clone()).collect();
    let few = Table::of(table.m, kept.len(), |levels| {
        let mut all = vec![0; table.n];
        for (&input, &level) in kept.iter().zip(levels) {
            all[input] = level;
        }
        table.ink(&all)
    });
    let n = kept.len();
    let m = table.m;
    (Header { m, n, names }, few)
}

/// Returns the lines after the fourth.
fn gate_lines(sheet: &[u8]) -> Vec<u8> {
    let lines = sheet.split_inclusive(|&byte| byte == b'\n');
    lines.skip(4).collect::<Vec<_>>().concat()
}

/// "Marks and a job's steps still cover every group", and "the finishing of jobs"
/// uses the leaves.
#[test]
fn a_job_covers_every_group_and_finishes_on_the_leaves() {
    let sheet = rule_sheet(2, "a b c d", |x| x[1] ^ x[2]);
    let (mut job, refusal) = Job::open(&sheet);
    assert_eq!(refusal, None);
    for group in 1..16 {
        assert_eq!(job.to_go(), 16 - group);
        job.step().expect("not done yet");
    }
    let (mut cells, mut marks, mut out) = ([7; CELLS], [7; MARKS], [7; NET_SHEET]);
    let length = job
        .finish(&mut cells, &mut marks, &mut out)
        .expect("a tree");
    assert_eq!(out[..length], net_sheet(2, "a b c d", "b c 0110"));
    // the inputs a and d do not matter, b and c only together
    let due = [0, 2, 2, 2, 2, 2, 2, 2, 2, 2, 2, 2, 2, 2, 2, 2];
    assert_eq!(unpacked(&marks[..4]), due);
}

/// Every number of gate lines is read, and printed as it was read.
#[test]
fn nets_are_read_and_printed_whatever_they_leave_out() {
    let seed = 1_202;
    println!("seed {seed}");
    let mut generator = Generator::new(seed);
    for (m, n) in allowed_sizes() {
        for _ in 0..10 {
            let (m, n) = (m as usize, n as usize);
            let header = generator.header(m, n);
            let net = generator.net_of_some_inputs(m, n);
            let sheet = print_net_sheet(&header, &net);
            assert_eq!(read_net_sheet(&sheet), Ok((header, net.clone())));
            // an input that is left out is not read
            let left_out = (0..n).find(|&i| !net.used_inputs().contains(&i));
            assert!(left_out.is_some() || n == 2);
            let mut levels = vec![0; n];
            let value = net.value(&levels);
            if let Some(input) = left_out {
                levels[input] = (m - 1) as u8;
            }
            assert_eq!(net.value(&levels), value);
        }
    }
}
