//! `requests write COUNT SEED CELLS`: writes that many lines for `sitgurp stream`, each asking to make a table of at most that many cells.
//! `requests check COUNT SEED CELLS < ANSWERS`: checks that line k answers request k as the second implementation does.

use reference::generate::{Generator, TableKind};
use reference::limits::allowed_sizes;
use std::io::{self, BufRead, BufWriter, Write};
use std::process::ExitCode;

fn main() -> ExitCode {
    let arguments: Vec<String> = std::env::args().skip(1).collect();
    let done = match parsed(&arguments) {
        Some((true, requests)) => requests.write(),
        Some((false, requests)) => requests.check(),
        None => {
            eprintln!("usage: requests write|check COUNT SEED CELLS");
            return ExitCode::from(2);
        }
    };
    match done {
        Ok(()) => ExitCode::SUCCESS,
        Err(error) => {
            eprintln!("requests: {error}");
            ExitCode::FAILURE
        }
    }
}

/// Tables determined by a seed.
struct Requests {
    count: u64,
    seed: u64,
    /// Their levels and inputs.
    sizes: Vec<(usize, usize)>,
}

/// Returns whether to write, and the requests, or None if the command is wrong.
fn parsed(arguments: &[String]) -> Option<(bool, Requests)> {
    let [what, count, seed, cells] = arguments else {
        return None;
    };
    let write = match what.as_str() {
        "write" => true,
        "check" => false,
        _ => return None,
    };
    let cells: u64 = cells.parse().ok()?;
    let fits = |(m, n): &(u64, u64)| m.pow(*n as u32) <= cells;
    let sizes = allowed_sizes().into_iter().filter(fits);
    let sizes = sizes.map(|(m, n)| (m as usize, n as usize)).collect();
    let requests = Requests {
        count: count.parse().ok()?,
        seed: seed.parse().ok()?,
        sizes,
    };
    (!requests.sizes.is_empty()).then_some((write, requests))
}

impl Requests {
    /// Returns the table sheet of request k.
    fn sheet(&self, k: u64) -> String {
        let mut generator = Generator::new(load::seed_of(self.seed, k));
        let (m, n) = self.sizes[k as usize % self.sizes.len()];
        let kind = TableKind::ALL[k as usize / self.sizes.len() % TableKind::ALL.len()];
        let sheet = generator.table_sheet(m, n, kind);
        String::from_utf8(sheet).expect("a sheet is text")
    }

    fn write(&self) -> io::Result<()> {
        let mut output = BufWriter::new(io::stdout().lock());
        for k in 0..self.count {
            let sheet = in_json(&self.sheet(k));
            writeln!(
                output,
                "{{\"id\":{k},\"call\":\"make\",\"sheets\":[{sheet}]}}"
            )?;
        }
        output.flush()
    }

    fn check(&self) -> io::Result<()> {
        let mut refused = 0;
        let mut answers = io::stdin().lock().lines();
        for k in 0..self.count {
            let due = self.due(k);
            let answer = answers.next().unwrap_or(Ok(String::new()))?;
            let agrees =
                due.iter().all(|part| answer.contains(part)) && answer.starts_with(&due[0]);
            if !agrees {
                let words = format!("line {} should have {due:?}: {answer}", k + 1);
                return Err(io::Error::other(words));
            }
            refused += u64::from(answer.contains("\"refused\""));
        }
        if let Some(extra) = answers.next() {
            return Err(io::Error::other(format!("a line too many: {}", extra?)));
        }
        println!(
            "{} answers, {refused} of them refusals, as the second implementation gives them",
            self.count
        );
        Ok(())
    }

    /// Returns what the answer to request k must begin with, and what it must contain.
    fn due(&self, k: u64) -> [String; 2] {
        let (mut cells, mut marks) = ([0; sitgurp::MOST_CELLS], [0; sitgurp::MOST_MARKS]);
        let mut output = [0; sitgurp::MOST_NET_SHEET];
        let sheet = self.sheet(k);
        match reference::make(sheet.as_bytes(), &mut cells, &mut marks, &mut output) {
            Ok(length) => {
                let sheet = std::str::from_utf8(&output[..length]).expect("a sheet is text");
                [
                    format!("{{\"id\":{k},\"status\":0,\"answer\":{{\"net\":"),
                    format!("\"sheet\":{}}}", in_json(sheet)),
                ]
            }
            Err(refusal) => [
                format!("{{\"id\":{k},\"status\":1,\"refused\":[{{"),
                format!(
                    "\"number\":{},\"kind\":\"NoTree\",\"place\":{},",
                    refusal.number, refusal.place
                ),
            ],
        }
    }
}

/// Returns a sheet as a JSON string. Line feeds are the only characters that need escaping.
fn in_json(sheet: &str) -> String {
    format!("\"{}\"", sheet.replace('\n', "\\n"))
}
