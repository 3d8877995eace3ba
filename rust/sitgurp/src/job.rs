//! Marking as a job: one group a step, so that its caller can do other things in between.

use std::iter::FusedIterator;

use crate::{answered, ffi, with_buffers, Named, Refusal, MOST_CELLS};

/// The bytes that a job has for its first lines, and for its marks.
const LINES: usize = 128;
const GROUPS: usize = 1 << 12;

/// A job that marks a table group by group, in the order of group numbers from 1. It keeps its own copy of the sheet's names, cells and marks.
///
/// ```
/// // 2 levels, ink 1 when at least two of a b c are 1: no tree
/// let sheet = b"levels inputs\n2 3\na b c ink\n0 0 0 0\n0 0 1 0\n0 1 0 0\n0 1 1 1\n1 0 0 0\n1 0 1 1\n1 1 0 1\n1 1 1 1\n";
/// let mut job = sitgurp::Job::of(sheet).unwrap();
/// job.step().unwrap();
/// assert_eq!((job.mark(1), job.mark(2)), (Ok(Some(2)), Ok(None)));
/// assert_eq!(job.finished().unwrap_err().place, 6);
/// let marks: Vec<(usize, u8)> = job.passing().collect();
/// assert_eq!(marks, [(2, 2), (3, 0), (4, 2), (5, 0), (6, 0), (7, 1)]);
/// assert_eq!(job.finished().unwrap_err().number, 16);
/// ```
#[derive(Clone, Debug, PartialEq, Eq)]
pub struct Job {
    // on the heap, so that moving a job moves a pointer
    parts: Box<Parts>,
}

/// A job's parts, as the calls take them.
#[derive(Clone, Debug, PartialEq, Eq)]
struct Parts {
    lines: [u8; LINES],
    cells: [u8; MOST_CELLS],
    marks: [u8; GROUPS],
    passed: usize,
}

impl Job {
    /// A job on a full table sheet. A sheet that is refused, 1 to 6 or 27, opens the empty job beside its refusal.
    pub fn open(sheet: &[u8]) -> (Job, Option<Refusal>) {
        let mut parts = Box::<Parts>::new_uninit();
        let to = parts.as_mut_ptr();
        // SAFETY: the parts have the lengths that the call takes, and do not overlap; other pointers are those of borrowed slices, with their lengths.
        let answer = unsafe {
            ffi::sitgurp_job_open_parts(
                sheet.as_ptr(),
                sheet.len(),
                (&raw mut (*to).lines).cast(),
                (&raw mut (*to).cells).cast(),
                (&raw mut (*to).marks).cast(),
                &raw mut (*to).passed,
            )
        };
        // SAFETY: the call writes every byte of every part, whether it accepts the sheet or refuses it.
        let parts = unsafe { parts.assume_init() };
        (Job { parts }, answered(answer, Named::Table, sheet).err())
    }

    /// A job on a table sheet that is accepted.
    pub fn of(sheet: &[u8]) -> Result<Job, Refusal> {
        match Job::open(sheet) {
            (job, None) => Ok(job),
            (_, Some(refusal)) => Err(refusal),
        }
    }

    /// One group further; 21 where the job is done.
    pub fn step(&mut self) -> Result<(), Refusal> {
        // SAFETY: the job's parts have the lengths that the call takes, and do not overlap; other pointers are those of borrowed slices, with their lengths.
        let answer = unsafe {
            ffi::sitgurp_job_step_parts(
                self.parts.lines.as_ptr(),
                self.parts.cells.as_ptr(),
                self.parts.marks.as_mut_ptr(),
                &mut self.parts.passed,
            )
        };
        answered(answer, Named::Neither, &[]).map(|_| ())
    }

    /// The final mark of a group that has been passed, and none of one that is not reached; 11 where there is no such group.
    pub fn mark(&self, group: usize) -> Result<Option<u8>, Refusal> {
        // SAFETY: the job's parts have the lengths that the call takes, and do not overlap; other pointers are those of borrowed slices, with their lengths.
        let mark = unsafe {
            ffi::sitgurp_job_mark_parts(
                self.parts.lines.as_ptr(),
                self.parts.marks.as_ptr(),
                self.parts.passed,
                group,
            )
        };
        match mark.kind {
            0 => Ok(Some(mark.value as u8)),
            1 => Ok(None),
            number => Err(Refusal::new(number, mark.value, Named::Neither, &[])),
        }
    }

    /// What [`make`](crate::make) comes to on the sheet that the job was opened on; 22 where the job is not done, and 9 where it is empty.
    pub fn finish(
        &self,
        cells: &mut [u8],
        marks: &mut [u8],
        output: &mut [u8],
    ) -> Result<usize, Refusal> {
        // SAFETY: the job's parts have the lengths that the call takes, and do not overlap; other pointers are those of borrowed slices, with their lengths.
        let answer = unsafe {
            ffi::sitgurp_job_finish_parts(
                self.parts.lines.as_ptr(),
                self.parts.cells.as_ptr(),
                self.parts.passed,
                cells.as_mut_ptr(),
                cells.len(),
                marks.as_mut_ptr(),
                marks.len(),
                output.as_mut_ptr(),
                output.len(),
            )
        };
        // the names of 16's group stand in the third of the job's own lines
        answered(answer, Named::Neither, &self.parts.lines)
    }

    /// The same with buffers that always suffice: the settled net sheet.
    pub fn finished(&self) -> Result<Vec<u8>, Refusal> {
        with_buffers(|cells, marks, output| self.finish(cells, marks, output))
    }

    /// How many groups have been passed.
    pub fn passed(&self) -> usize {
        self.parts.passed
    }

    /// How many groups there are: 2 to the power of its inputs, less 1. An input is a group of one, which the job knows.
    pub fn groups(&self) -> usize {
        let inputs = (0..usize::BITS).take_while(|&i| self.mark(1 << i).is_ok());
        (1 << inputs.count()) - 1
    }

    /// How many groups are still to go.
    pub fn to_go(&self) -> usize {
        self.groups().saturating_sub(self.parts.passed)
    }

    /// Every group's mark at its number, 0 where it has not been passed.
    pub fn marks(&self) -> &[u8] {
        &self.parts.marks[..=self.groups()]
    }

    /// The groups that are still to go with their marks, each as it is passed: every turn is a step.
    pub fn passing(&mut self) -> Passing<'_> {
        let left = self.to_go();
        Passing { job: self, left }
    }
}

/// The groups of a [`Job`] as they are passed, each with its mark.
#[derive(Debug)]
pub struct Passing<'a> {
    job: &'a mut Job,
    left: usize,
}

impl Iterator for Passing<'_> {
    type Item = (usize, u8);

    fn next(&mut self) -> Option<(usize, u8)> {
        self.job.step().ok()?;
        self.left -= 1;
        let parts = &self.job.parts;
        Some((parts.passed, parts.marks[parts.passed]))
    }

    fn size_hint(&self) -> (usize, Option<usize>) {
        (self.left, Some(self.left))
    }
}

impl ExactSizeIterator for Passing<'_> {}

impl FusedIterator for Passing<'_> {}
