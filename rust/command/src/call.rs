//! The words behind the command's name, taken apart.

use crate::commands::{self, Command};
use crate::help;
use crate::identity::Identity;
use crate::outcome::Failure;
use crate::words::{file_name, quoted};
use std::ffi::{OsStr, OsString};
use std::path::Path;
use std::sync::{Mutex, PoisonError};

/// An option of a command; `value` is what its value is called, where it takes one.
pub struct Opt {
    pub name: &'static str,
    pub value: Option<&'static str>,
    /// The ending of the files that are written with it for `-d FOLDER`, where it is not the command's.
    pub ending: Option<&'static str>,
    /// Whether it may be given more than once.
    pub many: bool,
    /// What it does, in a line or two.
    pub says: &'static str,
}

impl Opt {
    pub const fn flag(name: &'static str) -> Opt {
        Opt {
            name,
            value: None,
            ending: None,
            many: false,
            says: "",
        }
    }

    pub const fn value(name: &'static str, value: &'static str) -> Opt {
        Opt {
            value: Some(value),
            ..Opt::flag(name)
        }
    }

    /// The option with what it does.
    pub const fn says(self, says: &'static str) -> Opt {
        Opt { says, ..self }
    }
}

/// A command that was asked for, with its operands and options.
pub struct Call {
    pub command: &'static Command,
    pub operands: Vec<OsString>,
    pub json: bool,
    /// `-o FILE`.
    pub output: Option<OsString>,
    /// `-d FOLDER`.
    pub folder: Option<OsString>,
    /// Whether it is a sheet of many, whose progress is shown for all.
    pub of_many: bool,
    given: Vec<(&'static str, OsString)>,
    /// The sheets themselves, in a stream, which names no files.
    pub lent: Option<Vec<Vec<u8>>>,
    /// The files that were read.
    read: Mutex<Vec<Identity>>,
}

/// What was asked for: a text, such as help, or a command.
pub enum Asked {
    Text(String),
    /// Manual pages and completions below a folder.
    Generate(OsString),
    Call(Call),
}

impl Call {
    /// Notes that a file was read.
    pub fn has_read(&self, file: Identity) {
        let mut read = self.read.lock().unwrap_or_else(PoisonError::into_inner);
        read.push(file);
    }

    /// Refuses to write to a file that was read.
    pub fn may_write(&self, file: &Path) -> Result<(), Failure> {
        let read = self.read.lock().unwrap_or_else(PoisonError::into_inner);
        match Identity::at(file) {
            Some(known) if read.contains(&known) => Err(self.wrong(format!(
                "`{}` is a sheet that it reads, and would be written over: name another file",
                file_name(file.as_os_str())
            ))),
            _ => Ok(()),
        }
    }

    /// Whether an option was given.
    pub fn has(&self, option: &str) -> bool {
        self.given.iter().any(|(name, _)| *name == option)
    }

    /// An option's value.
    pub fn value(&self, option: &str) -> Option<String> {
        let given = self.given.iter().find(|(name, _)| *name == option);
        given.map(|(_, value)| value.to_string_lossy().into_owned())
    }

    /// The values of an option that may be given more than once.
    pub fn values(&self, option: &str) -> Vec<String> {
        let given = self.given.iter().filter(|(name, _)| *name == option);
        given
            .map(|(_, value)| value.to_string_lossy().into_owned())
            .collect()
    }

    /// An option's value as a number from 0 to `most`.
    pub fn number(&self, option: &str, most: u64) -> Result<Option<u64>, Failure> {
        let Some(value) = self.value(option) else {
            return Ok(None);
        };
        match value.parse() {
            Ok(number) if number <= most => Ok(Some(number)),
            _ if most == u64::MAX => Err(self.wrong(format!(
                "{option} takes a whole number from 0, not `{value}`"
            ))),
            _ => Err(self.wrong(format!(
                "{option} takes a whole number from 0 to {most}, not `{value}`"
            ))),
        }
    }

    /// The ending of the files that are written for `-d FOLDER`.
    pub fn ending(&self) -> Option<&'static str> {
        let given = self
            .command
            .options
            .iter()
            .filter(|option| self.has(option.name));
        given
            .filter_map(|option| option.ending)
            .next()
            .or(self.command.ending)
    }

    /// The same call for one sheet of many.
    pub fn of_sheet(&self, sheet: &OsStr) -> Call {
        Call {
            command: self.command,
            operands: vec![sheet.to_owned()],
            json: self.json,
            output: None,
            folder: None,
            of_many: true,
            given: self.given.clone(),
            lent: None,
            read: Mutex::default(),
        }
    }

    /// A usage fault of this command.
    pub fn wrong(&self, words: String) -> Failure {
        wrong(self.command, words)
    }
}

fn wrong(command: &Command, words: String) -> Failure {
    let name = command.name;
    let usage = command.usage;
    Failure::Usage(help::named(format!(
        "sitgurp {name}: {words}\nusage: sitgurp {name} {usage}\n`sitgurp {name} --help` says more."
    )))
}

/// What the words after `sitgurp` ask for.
pub fn asked(words: &[OsString]) -> Result<Asked, Failure> {
    let Some((first, rest)) = words.split_first() else {
        return Err(Failure::Usage(help::general()));
    };
    match first.to_str() {
        Some("--help" | "-h") => Ok(Asked::Text(help::general())),
        Some("--version" | "-V") => Ok(Asked::Text(help::version())),
        Some("generate") => match rest {
            [prefix] => Ok(Asked::Generate(prefix.clone())),
            _ => Err(Failure::Usage(help::named(
                "usage: sitgurp generate PREFIX".to_string(),
            ))),
        },
        Some("help") => match rest {
            [] => Ok(Asked::Text(help::general())),
            [name, ..] => named(name).map(|command| Asked::Text(help::of(command))),
        },
        _ => parsed(named(first)?, rest),
    }
}

fn named(name: &OsStr) -> Result<&'static Command, Failure> {
    commands::ALL
        .iter()
        .find(|command| name == command.name)
        .copied()
        .ok_or_else(|| {
            // a sheet where a command is due
            let likely = match Path::new(name).is_file() {
                true => format!("`sitgurp make {}` makes its tree, and ", quoted(name)),
                false => String::new(),
            };
            Failure::Usage(help::named(format!(
                "there is no command `{}`; {likely}`sitgurp --help` lists the commands",
                file_name(name)
            )))
        })
}

/// Returns the call of a line of a stream: its further words, and its sheets themselves. It reads and writes no files.
pub fn of_stream(
    command: &'static Command,
    words: Vec<OsString>,
    sheets: Vec<Vec<u8>>,
) -> Result<Call, Failure> {
    let Asked::Call(call) = parsed(command, &words)? else {
        return Err(wrong(command, "a stream gives no help".to_string()));
    };
    let is_file = |word: &OsString| !command.more || !word.to_string_lossy().contains('=');
    if let Some(word) = call.operands.iter().find(|word| is_file(word)) {
        return Err(wrong(
            command,
            format!(
                "`{}` is no option: a stream has its sheets in `sheets`",
                file_name(word)
            ),
        ));
    }
    if call.output.is_some() || call.folder.is_some() {
        return Err(wrong(command, "a stream writes no files".to_string()));
    }
    Ok(Call {
        json: true,
        of_many: true,
        lent: Some(sheets),
        ..call
    })
}

fn parsed(command: &'static Command, words: &[OsString]) -> Result<Asked, Failure> {
    let mut call = Call {
        command,
        operands: Vec::new(),
        json: false,
        output: None,
        folder: None,
        of_many: false,
        given: Vec::new(),
        lent: None,
        read: Mutex::default(),
    };
    let mut words = words.iter();
    let mut options_end = false;
    while let Some(word) = words.next() {
        let text = word.to_str().unwrap_or("");
        match text {
            _ if options_end || !text.starts_with('-') || text == "-" => {
                call.operands.push(word.clone())
            }
            "--" => options_end = true,
            "--help" | "-h" => return Ok(Asked::Text(help::of(command))),
            "--json" => call.json = true,
            "-o" => taken(command, "-o", "FILE", &mut call.output, words.next())?,
            "-d" if command.ending.is_some() => {
                taken(command, "-d", "FOLDER", &mut call.folder, words.next())?
            }
            _ => {
                let (known, value) = option(command, text, || words.next().cloned())?;
                if call.has(known.name) && !known.many {
                    return Err(wrong(command, format!("{} is given twice", known.name)));
                }
                call.given.push((known.name, value));
            }
        }
    }
    fits(&call)?;
    Ok(Asked::Call(call))
}

/// The value of `-o` or `-d`, which is given once.
fn taken(
    command: &Command,
    option: &str,
    what: &str,
    place: &mut Option<OsString>,
    value: Option<&OsString>,
) -> Result<(), Failure> {
    let value = value.ok_or_else(|| wrong(command, format!("{option} needs a {what}")))?;
    match place.replace(value.clone()) {
        None => Ok(()),
        Some(_) => Err(wrong(command, format!("{option} is given twice"))),
    }
}

/// An option of the command's own, with its value where it takes one: `--number 3` or `--number=3`.
fn option(
    command: &'static Command,
    text: &str,
    next: impl FnOnce() -> Option<OsString>,
) -> Result<(&'static Opt, OsString), Failure> {
    let (name, after) = match text.split_once('=') {
        Some((name, value)) => (name, Some(OsString::from(value))),
        None => (text, None),
    };
    let known = command.options.iter().find(|known| known.name == name);
    let known = known.ok_or_else(|| wrong(command, format!("there is no option `{name}` here")))?;
    match known.value {
        None if after.is_some() => Err(wrong(command, format!("{name} takes no value"))),
        None => Ok((known, OsString::new())),
        Some(what) => {
            let value = after.or_else(next);
            let value =
                value.ok_or_else(|| wrong(command, format!("{name} needs a value: {what}")))?;
            Ok((known, value))
        }
    }
}

/// Whether there are as many operands as the command takes.
fn fits(call: &Call) -> Result<(), Failure> {
    let Command { sheets, more, .. } = call.command;
    let count = call.operands.len();
    if call.folder.is_some() {
        return match (count, &call.output) {
            (_, Some(_)) => Err(call.wrong("-o and -d do not go together".to_string())),
            (0, _) => Err(call.wrong("-d needs the sheets to be named".to_string())),
            _ => Ok(()),
        };
    }
    if count > *sheets && !more {
        let extra = file_name(&call.operands[*sheets]);
        let many = match (call.command.ending, sheets) {
            (Some(_), 1) => "; for several sheets add -d FOLDER",
            _ => "",
        };
        return Err(call.wrong(format!("`{extra}` is one operand too many{many}")));
    }
    Ok(())
}
