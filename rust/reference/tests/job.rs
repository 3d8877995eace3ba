//! Marking as a job: every list of steps and questions, and what finishing writes.

use crate::common::*;
use reference::damage::byte_damages;
use reference::generate::{Generator, TableKind};
use reference::marks::marks_of;
use reference::sheet::read_table_sheet;
use reference::{allowed_sizes, make, Job};

/// Returns buffers of these lengths with some content.
fn lent(cells: usize, marks: usize, out: usize) -> [Vec<u8>; 3] {
    [vec![201; cells], vec![202; marks], vec![203; out]]
}

/// Opens a job on a good sheet and makes this many steps.
fn stepped(sheet: &[u8], steps: usize) -> Job {
    let (mut job, refusal) = Job::open(sheet);
    assert_eq!(refusal, None);
    for _ in 0..steps {
        assert_eq!(job.step(), Ok(()));
    }
    job
}

/// Returns groups that no job of n inputs has.
fn no_groups(n: usize) -> [u64; 6] {
    let beyond = 1 << n;
    [0, beyond, beyond + 1, beyond + (1 << 32), 1 << 63, u64::MAX]
}

/// Checks everything that can be asked of a job that has passed this many groups, against
/// the marks of its table. The job stays the same.
fn assert_asked(job: &Job, n: usize, passed: usize, of_groups: &[u8]) {
    let before = job.clone();
    let groups = of_groups.len() - 1;
    assert_eq!(job.to_go(), groups - passed);
    for (group, &mark) in of_groups.iter().enumerate() {
        let reached = group <= passed;
        assert_eq!(job.marks()[group], if reached { mark } else { 0 });
        if group > 0 {
            let due = reached.then_some(mark);
            assert_eq!(job.mark(group as u64), Ok(due), "{group} of {passed}");
        }
    }
    for group in no_groups(n) {
        assert_eq!(job.mark(group), Err(of_neither(11, 0)));
    }
    if passed < groups {
        for length in [0, 5_000] {
            let [mut c, mut k, mut o] = lent(length, length, length);
            let refusal = of_neither(22, (groups - passed) as u64);
            assert_eq!(job.finish(&mut c, &mut k, &mut o), Err(refusal));
            assert_eq!([c, k, o], lent(length, length, length));
        }
    }
    assert_eq!(job, &before);
}

/// Case 5, step by step.
#[test]
fn two_of_three_step_by_step() {
    let sheet = rule_sheet(2, "a b c", |x| usize::from(x.iter().sum::<usize>() >= 2));
    let of_groups = [0, 2, 2, 0, 2, 0, 0, 1];
    for passed in 0..=7 {
        assert_asked(&stepped(&sheet, passed), 3, passed, &of_groups);
    }
    let mut job = stepped(&sheet, 7);
    let done = job.clone();
    for _ in 0..3 {
        assert_eq!(job.step(), Err(of_neither(21, 0)));
        assert_eq!(job, done);
    }
    let [mut c, mut k, mut o] = lent(9, 3, 100);
    assert_eq!(job.finish(&mut c, &mut k, &mut o), Err(of_neither(16, 7)));
    assert_eq!(c, [0, 0, 0, 1, 0, 1, 1, 1, 201]);
    assert_eq!(k, [0x28, 0x42, 202]);
    assert_eq!(o, [203; 100]);
}

/// At every step of a job, at small sizes, and at some of them at every size.
#[test]
fn jobs_of_every_size() {
    let seed = 2_122;
    println!("seed {seed}");
    let mut generator = Generator::new(seed);
    for (m, n) in allowed_sizes() {
        let (m, n) = (m as usize, n as usize);
        for kind in [TableKind::OfNet, TableKind::ThreeMatter, TableKind::Sum] {
            let sheet = generator.table_sheet(m, n, kind);
            let (_, table) = read_table_sheet(&sheet).expect("a good sheet");
            let of_groups = marks_of(&table);
            let mut job = stepped(&sheet, 0);
            for passed in 0..1 << n {
                if n < 6 || passed % 97 == 0 {
                    assert_asked(&job, n, passed, &of_groups);
                }
                let step = job.step();
                assert_eq!(step.is_ok(), passed + 1 < 1 << n);
            }
            assert_asked(&job, n, (1 << n) - 1, &of_groups);
        }
    }
}

/// "For every list of steps and askings from a newly opened job": the questions
/// change nothing.
#[test]
fn lists_of_steps_and_askings() {
    let seed = 2_123;
    println!("seed {seed}");
    let mut generator = Generator::new(seed);
    for _ in 0..300 {
        let n = 2 + generator.rng.below(3);
        let kind = *generator.rng.pick(&TableKind::ALL);
        let sheet = generator.table_sheet(2, n, kind);
        let (_, table) = read_table_sheet(&sheet).expect("a good sheet");
        let of_groups = marks_of(&table);
        let mut job = stepped(&sheet, 0);
        let mut steps = 0;
        for _ in 0..generator.rng.below(60) {
            if generator.rng.below(2) == 0 {
                let due = if steps + 1 < 1 << n {
                    Ok(())
                } else {
                    Err(of_neither(21, 0))
                };
                assert_eq!(job.step(), due);
                steps += usize::from(due.is_ok());
            } else {
                let group = generator.rng.below((1 << n) + 2);
                let due = match group {
                    0 => Err(of_neither(11, 0)),
                    _ if group >= 1 << n => Err(of_neither(11, 0)),
                    _ if group > steps => Ok(None),
                    _ => Ok(Some(of_groups[group])),
                };
                assert_eq!(job.mark(group as u64), due);
            }
            assert_eq!(job, stepped(&sheet, steps));
        }
    }
}

/// "Finishing writes what making writes", and may be done again.
#[test]
fn finishing_is_making() {
    let seed = 2_124;
    println!("seed {seed}");
    let mut generator = Generator::new(seed);
    let mut seen = [0; 17];
    for _ in 0..400 {
        let (m, n) = *generator
            .rng
            .pick(&[(2, 2), (2, 3), (2, 4), (3, 3), (4, 2), (2, 6), (9, 2)]);
        let kind = *generator.rng.pick(&TableKind::ALL);
        let sheet = generator.table_sheet(m, n, kind);
        let job = stepped(&sheet, (1 << n) - 1);
        let cells = m.pow(n as u32) + generator.rng.below(4) - 1;
        let marks = (1 << n) / 4 + generator.rng.below(4) - 1;
        let out = *generator.rng.pick(&[0, 40, 512]);
        let [mut c, mut k, mut o] = lent(cells, marks, out);
        let due = make(&sheet, &mut c, &mut k, &mut o);
        for _ in 0..2 {
            let mut buffers = lent(cells, marks, out);
            let [cells, marks, out] = &mut buffers;
            assert_eq!(job.finish(cells, marks, out), due);
            assert_eq!(buffers, [c.clone(), k.clone(), o.clone()]);
        }
        seen[due.map_or_else(|refusal| usize::from(refusal.number), |_| 0)] += 1;
    }
    println!("answers {seen:?}");
    assert!([0, 13, 14, 15, 16].iter().all(|&number| seen[number] > 10));
    for (m, n) in [(2, 12), (4, 6), (9, 3)] {
        let sheet = generator.table_sheet(m, n, TableKind::OfNet);
        let job = stepped(&sheet, (1 << n) - 1);
        let mut out = [7; NET_SHEET];
        let length = job.finish(&mut [7; CELLS], &mut [7; MARKS], &mut out);
        assert_eq!(length.map(|length| out[..length].to_vec()), made(&sheet));
    }
}

/// "No inputs, no groups, already done."
fn assert_empty(sheet: &[u8]) {
    let refusal = made(sheet).expect_err("a bad sheet");
    let (mut job, beside) = Job::open(sheet);
    assert_eq!(beside, Some(refusal));
    assert_eq!((job.to_go(), job.marks()), (0, &[0][..]));
    let empty = job.clone();
    assert_eq!(job.step(), Err(of_neither(21, 0)));
    for group in [0, 1, 2, 3, u64::MAX] {
        assert_eq!(job.mark(group), Err(of_neither(11, 0)));
    }
    for length in [0, 600] {
        let mut buffers = lent(length, length, length);
        let [cells, marks, out] = &mut buffers;
        assert_eq!(job.finish(cells, marks, out), Err(of_neither(9, 0)));
        assert_eq!(buffers, lent(length, length, length));
    }
    assert_eq!(job, empty);
    assert_eq!(job, Job::open(b"").0);
}

#[test]
fn an_empty_job_beside_a_refusal() {
    for sheet in [
        "",
        "/",
        "levels inputs/2 1/",
        "levels inputs/2 2/a b ink/0 0 0/",
    ] {
        assert_empty(&lines(sheet));
    }
    assert_empty(&net_sheet(2, "a b", "a b 0110"));
    let good = table_sheet(2, "a b", &[0, 1, 1, 0]);
    for sheet in byte_damages(&good) {
        if read_table_sheet(&sheet).is_err() {
            assert_empty(&sheet);
        }
    }
}
