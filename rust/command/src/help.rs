//! What `--help` and `--version` say.

use crate::commands::{self, Command};
use crate::words::{self, wrapped};

pub fn version() -> String {
    format!("sitgurp {}\n", env!("CARGO_PKG_VERSION"))
}

/// What the program does, in a sentence.
pub const SUMMARY: &str =
    "Sitgurp turns a table of shades into a tree of two-input gates, or says that there is none.";
/// How sheets are named.
pub const SHEETS: &str = "A sheet is a file's name; `-` or no name is standard input.";
pub const STATUS: &str = "Status 0; 1 for a refusal or a 'no'; 2 for a wrong command, or a file that cannot be read or written.";

/// The width of what an option does.
const WIDTH: usize = 104;
/// Where that begins.
const INDENT: usize = 16;

/// Returns the list of commands.
pub fn general() -> String {
    let mut text = format!("{SUMMARY}\n\nusage: sitgurp COMMAND ..\n\n");
    for command in commands::ALL {
        let usage = format!("{} {}", command.name, command.usage);
        text += &format!("  {}\n      {}\n", usage.trim_end(), command.summary);
    }
    named(format!(
        "{text}\n{SHEETS} `sitgurp COMMAND --help` says more about a command.\n\n{STATUS}\n"
    ))
}

/// Returns the text with the command called as it was called.
pub fn named(text: String) -> String {
    let program = words::program();
    text.replace("sitgurp ", &format!("{program} "))
}

/// Returns the help of one command.
pub fn of(command: &Command) -> String {
    let Command {
        name,
        usage,
        summary,
        help,
        ..
    } = command;
    let usage = format!("{name} {usage}");
    let mut text = format!(
        "usage: sitgurp {}\n\n{summary}\n\n{help}\n",
        usage.trim_end()
    );
    for option in options(command) {
        text += &option.lines();
    }
    named(format!("{text}\n{STATUS}\n"))
}

/// An option as it is shown.
pub struct Shown {
    pub name: &'static str,
    pub value: Option<&'static str>,
    pub says: String,
}

impl Shown {
    /// Returns the option with its value: `--number K`.
    pub fn term(&self) -> String {
        match self.value {
            Some(value) => format!("{} {value}", self.name),
            None => self.name.to_string(),
        }
    }

    fn lines(&self) -> String {
        let text = wrapped(&self.says, WIDTH);
        let indent = format!("\n{}", " ".repeat(INDENT));
        let text = text.replace('\n', &indent);
        match self.term() {
            term if term.len() + 4 <= INDENT => {
                format!("  {term:<width$}{text}\n", width = INDENT - 2)
            }
            term => format!("  {term}{indent}{text}\n"),
        }
    }
}

/// Lists all options of a command: its own, and those that every command has.
pub fn options(command: &Command) -> Vec<Shown> {
    let own = command.options.iter().map(|option| Shown {
        name: option.name,
        value: option.value,
        says: option.says.to_string(),
    });
    let mut options: Vec<Shown> = own.collect();
    if command.is_stream() {
        return options;
    }
    let mut put = |name, value, says: String| options.push(Shown { name, value, says });
    put(
        "-o",
        Some("FILE"),
        "write to FILE, whole or not at all, and not to standard output".to_string(),
    );
    put(
        "--json",
        None,
        "write the answer, or the refusal, as JSON to standard output".to_string(),
    );
    if let Some(ending) = command.ending {
        let says = format!(
            "take any number of sheets, on all cores, and write each to FOLDER as NAME.{ending}"
        );
        put("-d", Some("FOLDER"), says);
    }
    options
}
