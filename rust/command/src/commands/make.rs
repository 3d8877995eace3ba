//! `make`: the tree of a table.

use super::{Command, SHALLOW};
use crate::call::{Call, Opt};
use crate::input::sheets;
use crate::json::Json;
use crate::outcome::{Answer, Failure};
use crate::progress::Progress;
use crate::refused::{self, Refused};
use sitgurp::{Job, Net, Refusal, Table};

pub static COMMAND: Command = Command {
    name: "make",
    usage: "[TABLE] [--shallow | --number K]",
    summary: "the tree of a table sheet, as a net sheet",
    help: "\
Writes the settled net of the table: of all trees that compute it the one that fixed rules choose. It uses just the inputs that
matter, two at least. A table that no tree computes is refused, and `sitgurp why TABLE` says what to change. Every cell has an ink:
one that is left open, with the ink `-`, is refused.
",
    sheets: 1,
    more: false,
    options: &[SHALLOW, Opt::value("--number", "K").says(
        "write the tree of number K, from 0; `sitgurp count TABLE` says how many there are, and 0 is the settled one",
    )],
    ending: Some("net"),
    run,
};

fn run(call: &Call) -> Result<Answer, Failure> {
    let number = call.number("--number", u64::MAX)?;
    if number.is_some() && call.has("--shallow") {
        return Err(call.wrong("--shallow and --number do not go together".to_string()));
    }
    let [sheet] = sheets(call)?;
    let table = refused::full_table(&sheet)?;
    let made = match number {
        Some(number) => table.family().and_then(|trees| trees.tree(number)),
        None if call.has("--shallow") => table.shallow().map(|shallow| shallow.net),
        None => settled(call, &table),
    };
    let net = made.map_err(|refusal| Refused::of_table(&sheet, &table, refusal))?;
    let json = Json::object([("net", crate::sheets::net(&net))]);
    Ok(Answer::new(net.as_str(), json))
}

/// A table of so many cells is made by a job, where there is somebody to show its progress to.
const LARGE: usize = 1_024;
/// How often a job tells how far it has come.
const TELLINGS: usize = 30;

fn settled(call: &Call, table: &Table) -> Result<Net, Refusal> {
    let progress = Progress::of((1 << table.names().len()) - 1);
    if call.of_many || table.inks().len() < LARGE || !progress.is_shown() {
        return table.settled();
    }
    let made = stepped(table, |passed| progress.at(passed));
    progress.end();
    made
}

/// The settled net by a job, which tells now and then how many groups it has passed.
fn stepped(table: &Table, mut tell: impl FnMut(usize)) -> Result<Net, Refusal> {
    let mut job = Job::of(table.as_ref())?;
    let often = job.groups().div_ceil(TELLINGS);
    for (group, _) in job.passing() {
        if group.is_multiple_of(often) {
            tell(group);
        }
    }
    let sheet = job.finished()?;
    Ok(Net::read(&sheet).expect("a sheet that the library has written"))
}

#[cfg(test)]
mod tests {
    use super::stepped;
    use sitgurp::Table;

    /// The table of a rule over the levels of so many inputs.
    fn table(levels: usize, inputs: usize, rule: impl Fn(&[u8]) -> usize) -> Table {
        let names: Vec<String> = (0..inputs).map(|input| format!("i{input}")).collect();
        Table::from_rule(levels, &names, |row| (rule(row) % levels) as u8).expect("a table")
    }

    fn sum(row: &[u8]) -> usize {
        row.iter().map(|&level| usize::from(level)).sum()
    }

    #[test]
    fn a_job_comes_to_the_same() {
        let most = |row: &[u8]| usize::from(*row.iter().max().expect("an input"));
        let tables = [
            table(2, 10, sum),
            table(4, 5, most),
            table(3, 7, |row| usize::from(row[0].max(row[6]))),
            // none of these has a tree
            table(2, 10, |row| usize::from(sum(row) > 4)),
            table(4, 5, |row| sum(row) / 3),
        ];
        for table in tables {
            assert_eq!(stepped(&table, |_| ()), table.settled(), "{table:?}");
        }
    }

    #[test]
    fn progress_is_told_now_and_then() {
        let mut told = Vec::new();
        stepped(&table(2, 10, sum), |passed| told.push(passed)).expect("a tree");
        assert_eq!((told.first(), told.last()), (Some(&35), Some(&1_015)));
        assert!(told.len() <= 30 && told.is_sorted());
    }
}
