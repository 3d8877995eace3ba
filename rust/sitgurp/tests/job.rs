//! Marking as a job, held against the second implementation: every step of small tables and many of the largest, lists of steps and askings, finishing
//! against making, the empty job beside a refusal, buffers of every length around each need and full of other bytes.

use crate::common::{around_each_need, due, full, got, sizes, Back, Lengths, ENOUGH};
use reference::damage::byte_damages;
use reference::generate::{Generator, TableKind};
use sitgurp::Named;

const SEED: u64 = 21;

/// A job of each implementation on the same sheet.
struct Jobs {
    ours: sitgurp::Job,
    theirs: reference::Job,
}

impl Jobs {
    /// Both open alike; beside a refusal, too.
    fn open(sheet: &[u8]) -> (Jobs, Result<(), Back>) {
        let (ours, refusal) = sitgurp::Job::open(sheet);
        let answer = got(refusal.map_or(Ok(()), Err));
        let (theirs, refusal) = reference::Job::open(sheet);
        let expected = due(refusal.map_or(Ok(()), Err));
        let text = String::from_utf8_lossy(sheet);
        assert_eq!(answer, expected, "sheet {text:?}");
        (Jobs { ours, theirs }, answer)
    }

    fn on(sheet: &[u8]) -> Jobs {
        let (jobs, answer) = Jobs::open(sheet);
        assert_eq!(answer, Ok(()));
        jobs
    }

    fn step(&mut self) -> Result<(), Back> {
        let answer = got(self.ours.step());
        assert_eq!(answer, due(self.theirs.step()));
        answer
    }

    fn mark(&self, group: usize) -> Result<Option<u8>, Back> {
        let answer = got(self.ours.mark(group));
        assert_eq!(answer, due(self.theirs.mark(group as u64)), "{group}");
        answer
    }

    /// Answers what the second implementation gives, and leaves the same bytes.
    fn finish(&self, Lengths(cells, marks, output): Lengths) -> Result<Vec<u8>, Back> {
        let mut ours = [full(cells), full(marks), full(output)];
        let mut theirs = ours.clone();
        let [cells, marks, output] = &mut ours;
        let answer = got(self.ours.finish(cells, marks, output));
        let [cells, marks, output] = &mut theirs;
        let expected = due(self.theirs.finish(cells, marks, output));
        assert_eq!(answer, expected);
        assert!(ours == theirs, "buffers differ");
        answer.map(|length| ours[2][..length].to_vec())
    }

    /// As many steps as it takes; answers how many.
    fn all_steps(&mut self) -> usize {
        let mut steps = 0;
        while self.step().is_ok() {
            steps += 1;
        }
        steps
    }
}

/// Groups that no sheet has.
const NO_GROUPS: [usize; 5] = [0, 1 << 12, (1 << 12) + 1, 1 << 32, usize::MAX];

/// Every step at the small sizes, and all groups asked at each; at the larger ones some of them.
#[test]
fn every_size() {
    println!("seed {SEED}");
    let mut generator = Generator::new(SEED);
    for (m, n) in sizes() {
        let kinds = match n < 8 {
            true => &TableKind::ALL[..],
            false => &[TableKind::OfNet, TableKind::ThreeMatter],
        };
        let between = match n < 5 {
            true => 1,
            false => 97,
        };
        for &kind in kinds {
            let sheet = generator.table_sheet(m, n, kind);
            let mut jobs = Jobs::on(&sheet);
            for passed in 0..1 << n {
                if passed % between == 0 {
                    for group in (0..=1 << n).chain(NO_GROUPS) {
                        jobs.mark(group).ok();
                    }
                    jobs.finish(Lengths(0, 0, 0)).expect_err("short");
                    jobs.finish(ENOUGH).ok();
                }
                assert_eq!(jobs.step().is_ok(), passed + 1 < 1 << n);
            }
            for group in 1..1 << n {
                assert!(jobs.mark(group).expect("a group").is_some());
            }
            let finished = jobs.finish(ENOUGH);
            let made = got(sitgurp::made(&sheet));
            assert_eq!(
                finished.clone().map_err(|refusal| refusal.0),
                made.map_err(|r| r.0)
            );
            assert_eq!(jobs.finish(ENOUGH), finished);
        }
    }
}

/// The place of 22 is the groups still to go; 21 and 22 leave the job as it was.
#[test]
fn refusals_21_and_22() {
    let mut generator = Generator::new(SEED + 1);
    for (m, n) in [(2, 2), (3, 3), (2, 5), (9, 3)] {
        let sheet = generator.table_sheet(m, n, TableKind::Sum);
        let mut jobs = Jobs::on(&sheet);
        let groups = (1 << n) - 1;
        for passed in 0..groups {
            for lengths in [Lengths(0, 0, 0), ENOUGH] {
                let refusal = (22, groups - passed, Named::Neither);
                assert_eq!(jobs.finish(lengths), Err(refusal));
            }
            assert_eq!(jobs.step(), Ok(()));
        }
        for _ in 0..3 {
            assert_eq!(jobs.step(), Err((21, 0, Named::Neither)));
            assert_eq!(jobs.finish(ENOUGH), got(sitgurp::made(&sheet)));
        }
    }
}

/// What a job has been through is told by its steps alone.
#[test]
fn lists_of_steps_and_askings() {
    let mut generator = Generator::new(SEED + 2);
    for _ in 0..400 {
        let n = 2 + generator.rng.below(4);
        let kind = *generator.rng.pick(&TableKind::ALL);
        let sheet = generator.table_sheet(2, n, kind);
        let mut jobs = Jobs::on(&sheet);
        for _ in 0..generator.rng.below(80) {
            match generator.rng.below(5) {
                0 => drop(jobs.finish(ENOUGH)),
                1 | 2 => drop(jobs.mark(generator.rng.below((1 << n) + 2))),
                _ => drop(jobs.step()),
            }
        }
    }
}

#[test]
fn every_buffer_around_its_need() {
    let mut generator = Generator::new(SEED + 3);
    for (m, n) in [(2, 2), (2, 3), (3, 3), (2, 6), (9, 3), (2, 12)] {
        for kind in [TableKind::OfNet, TableKind::Random] {
            let sheet = generator.table_sheet(m, n, kind);
            let mut jobs = Jobs::on(&sheet);
            assert_eq!(jobs.all_steps(), (1 << n) - 1);
            let need = jobs.finish(ENOUGH).map_or(200, |net| net.len());
            around_each_need(m, n, need, |lengths| {
                jobs.finish(lengths).ok();
            });
        }
    }
}

/// The empty job: step 21 at 0, any asking 11 at 0, finishing 9 at 0.
fn empty(sheet: &[u8]) {
    let (mut jobs, answer) = Jobs::open(sheet);
    let (number, _, named) = answer.expect_err("a bad sheet");
    assert!((1..=6).contains(&number) && named == Named::Table);
    for _ in 0..2 {
        assert_eq!(jobs.step(), Err((21, 0, Named::Neither)));
        for group in (0..5).chain(NO_GROUPS) {
            assert_eq!(jobs.mark(group), Err((11, 0, Named::Neither)));
        }
        for lengths in [Lengths(0, 0, 0), ENOUGH] {
            assert_eq!(jobs.finish(lengths), Err((9, 0, Named::Neither)));
        }
    }
}

#[test]
fn an_empty_job_beside_a_refusal() {
    let mut generator = Generator::new(SEED + 4);
    for sheet in [
        &b""[..],
        b"\n",
        b" ",
        b"\0",
        b"\xff",
        b"levels inputs\n2 2\n",
    ] {
        empty(sheet);
    }
    let mut refused = 0;
    for (m, n) in [(2, 2), (3, 2)] {
        for damaged in byte_damages(&generator.table_sheet(m, n, TableKind::Random)) {
            if sitgurp::make(&damaged, &mut [], &mut [], &mut []).is_err_and(|r| r.number < 9) {
                empty(&damaged);
                refused += 1;
            }
        }
    }
    for (m, n) in sizes() {
        empty(&generator.net_sheet(m, n));
        let sheet = generator.table_sheet(m, n, TableKind::Constant);
        empty(&sheet[..sheet.len() - 1]);
    }
    assert!(refused > 500);
}
