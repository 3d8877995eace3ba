//! A stream of calls: one JSON object for each line that is read, and one for each that is written, in the same order. Lines are called on all cores. A bad
//! line gives an error and stops nothing.

mod json;
mod request;

use crate::call::Call;
use crate::closed::output_is_closed;
use crate::input;
use crate::outcome::{self, Failure, GOOD, WRONG};
use crate::output::{self, output_or_end};
use request::{answered, Line};
use std::io::{self, BufRead, BufWriter, Read, Write};
use std::sync::mpsc::{self, Receiver, Sender, SyncSender, TryRecvError};
use std::sync::{Arc, Condvar, Mutex, MutexGuard, PoisonError};
use std::thread;

/// The longest line. A sheet has 106,627 bytes at most, and much more only with spaces that no one needs.
const LONGEST: usize = 4 << 20;
/// How many bytes of lines are in work at once, or one line.
const IN_WORK: usize = 32 << 20;
/// How many lines for each core are in work at once.
const LINES_A_CORE: usize = 16;

/// A line that waits for a core, and where its answer goes.
type Job = (Line, Sender<String>);

/// Reads lines until there are none left, and returns the status: 0, whatever the lines are.
pub fn run(call: &Call) -> u8 {
    match opened(call) {
        Ok((jobs, from)) => stream(jobs, from),
        Err(failure) => outcome::failed(&failure, false),
    }
}

/// Returns how many cores are to be used, and what is read.
fn opened(call: &Call) -> Result<(usize, Box<dyn BufRead>), Failure> {
    if call.output.is_some() {
        return Err(
            call.wrong("it writes to standard output as it goes, and takes no -o".to_string())
        );
    }
    if output_is_closed() {
        return Err(output::closed());
    }
    let cores = thread::available_parallelism().map_or(1, |cores| cores.get());
    let jobs = match call.number("--jobs", 1_024)? {
        Some(0) => {
            return Err(
                call.wrong("--jobs takes a whole number from 1 to 1024, not `0`".to_string())
            )
        }
        Some(jobs) => jobs as usize,
        None => cores,
    };
    let name = call.operands.first().map_or("-".as_ref(), AsRef::as_ref);
    Ok((jobs, input::lines(call, name)?))
}

fn stream(jobs: usize, from: Box<dyn BufRead>) -> u8 {
    let most = jobs * LINES_A_CORE;
    let budget = Arc::new(Budget::new(IN_WORK));
    let (to_cores, for_cores) = mpsc::sync_channel::<Job>(most);
    let (to_writer, for_writer) = mpsc::sync_channel::<(usize, Receiver<String>)>(most);
    let for_cores = Mutex::new(for_cores);
    thread::scope(|scope| {
        for _ in 0..jobs {
            scope.spawn(|| work(&for_cores));
        }
        let lent = Arc::clone(&budget);
        scope.spawn(move || write(for_writer, &lent));
        let ended = read(from, &budget, &to_cores, &to_writer);
        drop((to_cores, to_writer));
        match ended {
            Ok(()) => GOOD,
            Err(error) => {
                outcome::failed(&input::cannot("read", "the stream", &error), false);
                WRONG
            }
        }
    })
}

/// Reads lines, and hands each to the cores and the place of its answer to the writer.
fn read(
    mut from: Box<dyn BufRead>,
    budget: &Budget,
    to_cores: &SyncSender<Job>,
    to_writer: &SyncSender<(usize, Receiver<String>)>,
) -> io::Result<()> {
    let mut number = 0;
    while let Some(bytes) = next_line(&mut from)? {
        number += 1;
        let length = bytes.as_ref().map_or(0, Vec::len);
        budget.take(length);
        let (sender, receiver) = mpsc::channel();
        let line = Line { number, bytes };
        // both are there until this function has ended
        if to_writer.send((length, receiver)).is_err() || to_cores.send((line, sender)).is_err() {
            break;
        }
    }
    Ok(())
}

/// Returns the next line without its line feed; none where it is too long, of which no more is kept. `Ok(None)` is the end.
fn next_line(from: &mut impl BufRead) -> io::Result<Option<Option<Vec<u8>>>> {
    let mut line = Vec::new();
    let most = LONGEST as u64 + 1;
    if from.by_ref().take(most).read_until(b'\n', &mut line)? == 0 {
        return Ok(None);
    }
    if line.last() == Some(&b'\n') {
        line.pop();
    } else if line.len() > LONGEST {
        skip_line(from)?;
        return Ok(Some(None));
    }
    Ok(Some(Some(line)))
}

/// Passes over the rest of a line.
fn skip_line(from: &mut impl BufRead) -> io::Result<()> {
    loop {
        let buffer = from.fill_buf()?;
        let feed = buffer.iter().position(|&byte| byte == b'\n');
        let (length, ended) = match feed {
            Some(feed) => (feed + 1, true),
            None => (buffer.len(), buffer.is_empty()),
        };
        from.consume(length);
        if ended {
            return Ok(());
        }
    }
}

/// Answers lines until there are none left.
fn work(jobs: &Mutex<Receiver<Job>>) {
    loop {
        let job = locked(jobs).recv();
        let Ok((line, sender)) = job else { return };
        // the writer waits for it
        sender.send(answered(&line)).ok();
    }
}

/// Writes the answers in the order of their lines. What is written is flushed whenever the next answer is not there yet.
fn write(answers: Receiver<(usize, Receiver<String>)>, budget: &Budget) {
    let mut output = BufWriter::with_capacity(1 << 16, io::stdout().lock());
    loop {
        let next = answers.try_recv().or_else(|error| match error {
            TryRecvError::Empty => {
                output_or_end(output.flush());
                answers.recv().map_err(drop)
            }
            TryRecvError::Disconnected => Err(()),
        });
        let Ok((length, answer)) = next else { break };
        let text = answer.try_recv().or_else(|_| {
            output_or_end(output.flush());
            answer.recv()
        });
        output_or_end(output.write_all(text.unwrap_or_default().as_bytes()));
        budget.give(length);
    }
    output_or_end(output.flush());
}

fn locked<T>(mutex: &Mutex<T>) -> MutexGuard<'_, T> {
    mutex.lock().unwrap_or_else(PoisonError::into_inner)
}

/// How many bytes may still be taken into work.
struct Budget {
    left: Mutex<usize>,
    given: Condvar,
    all: usize,
}

impl Budget {
    fn new(all: usize) -> Budget {
        Budget {
            left: Mutex::new(all),
            given: Condvar::new(),
            all,
        }
    }

    /// Waits until so many bytes may be taken.
    fn take(&self, length: usize) {
        let length = length.min(self.all);
        let mut left = locked(&self.left);
        while *left < length {
            left = self
                .given
                .wait(left)
                .unwrap_or_else(PoisonError::into_inner);
        }
        *left -= length;
    }

    fn give(&self, length: usize) {
        *locked(&self.left) += length.min(self.all);
        self.given.notify_one();
    }
}
