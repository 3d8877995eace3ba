//! docs/landings: every note has the times of the check before and after the landing, in the same words, and the table has them too. They are those of
//! times.txt.

use crate::common::repository;
use std::fs;

const HEAD: &str =
    "| `rt prove` | crates | wall time | CPU time | lines of specs | lines of proofs | lines of src |\n|---|---|---|---|---|---|---|\n";

/// A line of times.txt: one state of one landing.
struct State {
    request: String,
    when: String,
    commit: String,
    proved: bool,
    crates: String,
    wall: String,
    cpu: String,
    lines: Vec<String>,
}

/// Returns a file of the folder.
fn read(name: &str) -> String {
    let path = repository().join("docs/landings").join(name);
    fs::read_to_string(&path).unwrap_or_else(|error| panic!("{}: {error}", path.display()))
}

/// Returns a number with a comma after its thousands.
fn with_comma(number: &str) -> String {
    match number.len() {
        0..=3 => number.to_string(),
        count => format!("{},{}", &number[..count - 3], &number[count - 3..]),
    }
}

/// Returns the states of a list of times.
fn states(times: &str) -> Vec<State> {
    let lines = times.lines().filter(|line| !line.starts_with('#'));
    lines
        .map(|line| {
            let words: Vec<String> = line.split(' ').map(str::to_string).collect();
            assert_eq!(words.len(), 10, "{line}");
            assert!(
                words[5..].iter().all(|word| word.parse::<u32>().is_ok()),
                "{line}"
            );
            State {
                request: words[0].clone(),
                when: words[1].clone(),
                commit: words[2].clone(),
                crates: words[3].clone(),
                proved: words[4] == "proved",
                wall: words[5].clone(),
                cpu: words[6].clone(),
                lines: words[7..].iter().map(|word| with_comma(word)).collect(),
            }
        })
        .collect()
}

impl State {
    /// Returns the state's row in the note.
    fn row(&self) -> String {
        let time = |seconds: &str| match self.proved {
            true => format!("{seconds} s"),
            false => "does not prove".to_string(),
        };
        let (wall, cpu, lines) = (time(&self.wall), time(&self.cpu), self.lines.join(" | "));
        format!(
            "| {}, {} | {} | {wall} | {cpu} | {lines} |\n",
            self.when, self.commit, self.crates
        )
    }

    /// Returns the state's cell in the table of all landings.
    fn cell(&self) -> String {
        match self.proved {
            true => format!("{} s, {} s CPU", self.wall, self.cpu),
            false => "does not prove".to_string(),
        }
    }
}

/// Returns the names of the notes.
fn notes() -> Vec<String> {
    let folder = repository().join("docs/landings");
    let entries = fs::read_dir(folder).expect("the folder");
    let names = entries.map(|entry| {
        entry
            .expect("a file")
            .file_name()
            .to_string_lossy()
            .into_owned()
    });
    names
        .filter(|name| name.starts_with('K') && name.ends_with(".md"))
        .collect()
}

#[test]
fn every_note_has_the_times_before_and_after() {
    let states = states(&read("times.txt"));
    let notes = notes();
    assert_eq!((notes.len(), states.len()), (14, 28));
    for note in notes {
        let text = read(&note);
        let request = note.trim_end_matches(".md");
        let pair: Vec<&State> = states
            .iter()
            .filter(|state| state.request == request)
            .collect();
        assert_eq!(pair.len(), 2, "{note}");
        assert_eq!(
            (pair[0].when.as_str(), pair[1].when.as_str()),
            ("before", "after"),
            "{note}"
        );
        let due = format!("{HEAD}{}{}", pair[0].row(), pair[1].row());
        assert!(text.contains(&due), "{note} lacks\n{due}");
        // a state that does not prove: the note says which commit fixed it
        if pair.iter().any(|state| !state.proved) {
            assert!(
                text.contains("fixed it."),
                "{note} names no commit that fixed the state"
            );
        }
    }
}

#[test]
fn the_table_has_the_times_of_every_note() {
    let table = read("README.md");
    for pair in states(&read("times.txt")).chunks(2) {
        let request = &pair[0].request;
        let start = format!("| [{request}]({request}.md)");
        let row = table.lines().find(|line| line.starts_with(&start));
        let due = format!("| {} | {} |", pair[0].cell(), pair[1].cell());
        assert!(
            row.is_some_and(|row| row.ends_with(&due)),
            "{request}: {row:?} lacks {due}"
        );
    }
}
