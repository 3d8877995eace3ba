//! "Marking that yields to the pen": marking as a job that processes one more group
//! at each step.

use crate::calls::{read_full_table_sheet, write_settled};
use crate::groups::whole;
use crate::marks::{mark_of, NONE};
use crate::net::Table;
use crate::refusal::{self, Refusal};
use crate::sheet::Header;

/// A job "keeps its own copy of names, cells and marks". The groups from 1 up to
/// `passed` have been passed, and every other mark in it is 0.
#[derive(Clone, Debug, PartialEq, Eq)]
pub struct Job {
    header: Header,
    table: Table,
    marks: Vec<u8>,
    passed: usize,
}

impl Job {
    /// Opens a job on a table sheet, which "needs a full table [..] at its opening". "A
    /// sheet that is turned back opens an empty job beside its refusal."
    /// Refusals 1 to 6, 27.
    pub fn open(sheet: &[u8]) -> (Job, Option<Refusal>) {
        match read_full_table_sheet(sheet) {
            Ok((header, table)) => (Job::of(header, table), None),
            Err(refusal) => (Job::empty(), Some(refusal)),
        }
    }

    fn of(header: Header, table: Table) -> Job {
        let marks = vec![NONE; whole(table.n) + 1];
        Job {
            header,
            table,
            marks,
            passed: 0,
        }
    }

    /// "No inputs, no groups, already done."
    fn empty() -> Job {
        let header = Header {
            m: 0,
            n: 0,
            names: Vec::new(),
        };
        let table = Table {
            m: 0,
            n: 0,
            inks: Vec::new(),
        };
        Job::of(header, table)
    }

    /// Returns the number of groups still to go. "After 2 to the n, less 1, steps it is done, never
    /// earlier."
    pub fn to_go(&self) -> usize {
        whole(self.table.n) - self.passed
    }

    /// Returns the mark of every group, at its number, as the job keeps them.
    pub fn marks(&self) -> &[u8] {
        &self.marks
    }

    /// "One group further, in the order of group numbers from 1." 21: "step on a
    /// done job, place 0".
    pub fn step(&mut self) -> Result<(), Refusal> {
        if self.to_go() == 0 {
            return Err(Refusal::new(refusal::JOB_DONE, 0));
        }
        let group = self.passed + 1;
        self.marks[group] = mark_of(&self.table, &self.marks, group);
        self.passed = group;
        Ok(())
    }

    /// "The final one if the group has been passed, otherwise `not reached`", which
    /// is none here. Refusal 11.
    pub fn mark(&self, group: u64) -> Result<Option<u8>, Refusal> {
        if group == 0 || group > whole(self.table.n) as u64 {
            return Err(Refusal::new(refusal::GROUP, 0));
        }
        let group = group as usize;
        Ok((group <= self.passed).then(|| self.marks[group]))
    }

    /// "Finishing writes what making writes." For an empty job the refusal is 9 at 0; 22:
    /// "finish on an unfinished one, place the groups still to go", "judged before
    /// 13". Refusals 9, 22, 13, 14, 16, 15.
    pub fn finish(
        &self,
        cells: &mut [u8],
        marks: &mut [u8],
        out: &mut [u8],
    ) -> Result<usize, Refusal> {
        if self.table.n == 0 {
            return Err(Refusal::new(refusal::BARE_SIZE, 0));
        }
        if self.to_go() > 0 {
            return Err(Refusal::new(refusal::JOB_UNFINISHED, self.to_go() as u64));
        }
        write_settled(&self.header, &self.table, &self.marks, cells, marks, out)
    }
}
