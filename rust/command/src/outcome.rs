//! What comes of a call: an answer or a failure, how it is told, and the status.

use crate::call::Call;
use crate::json::Json;
use crate::output;
use crate::refused::Refused;
use crate::words::printable;
use std::path::Path;

/// The answer of a command.
pub struct Answer {
    /// What is written.
    pub text: Vec<u8>,
    /// The same with `--json`.
    pub json: Json,
    /// What is said beside it on standard error.
    pub notes: Vec<String>,
    /// Whether the answer is a 'no', which shows in the status.
    pub no: bool,
}

impl Answer {
    pub fn new(text: impl Into<Vec<u8>>, json: Json) -> Answer {
        Answer {
            text: text.into(),
            json,
            notes: Vec::new(),
            no: false,
        }
    }

    pub fn no(self) -> Answer {
        Answer { no: true, ..self }
    }

    pub fn note(mut self, words: String) -> Answer {
        self.notes.push(words);
        self
    }
}

/// Why there is no answer.
pub enum Failure {
    /// The library has refused a sheet, or two.
    Refused(Vec<Refused>),
    /// The command is wrong.
    Usage(String),
    /// A file cannot be read or written.
    File(String),
}

impl From<Box<Refused>> for Failure {
    fn from(refused: Box<Refused>) -> Failure {
        Failure::Refused(vec![*refused])
    }
}

impl From<Refused> for Failure {
    fn from(refused: Refused) -> Failure {
        Failure::Refused(vec![refused])
    }
}

pub const GOOD: u8 = 0;
pub const NO: u8 = 1;
pub const WRONG: u8 = 2;

/// Writes a text such as help.
pub fn said(text: String) -> u8 {
    match output::to_standard(text.as_bytes()) {
        Ok(()) => GOOD,
        Err(failure) => failed(&failure, false),
    }
}

/// Tells a call's answer or its failure, and gives the status.
pub fn told(call: &Call, result: Result<Answer, Failure>) -> u8 {
    let answer = match result {
        Ok(answer) => answer,
        Err(failure) => return failed(&failure, call.json),
    };
    let file = call.output.as_deref().filter(|file| *file != "-");
    let file = file.map(Path::new);
    if let Some(Err(failure)) = file.map(|file| call.may_write(file)) {
        return failed(&failure, false);
    }
    for note in &answer.notes {
        output::to_error(note);
    }
    let text = match call.json {
        true => answer.json.to_string().into_bytes(),
        false => answer.text,
    };
    let written = match file {
        Some(file) => output::to_file(file, &text),
        None => output::to_standard(&text),
    };
    match written {
        Err(failure) => failed(&failure, false),
        Ok(()) if answer.no => NO,
        Ok(()) => GOOD,
    }
}

/// Says a failure: a refusal in words on standard error, or as JSON on standard output.
pub fn failed(failure: &Failure, json: bool) -> u8 {
    match failure {
        Failure::Refused(refused) if json => {
            let list = refused.iter().map(Refused::json).collect();
            let json = Json::object([("refused", Json::List(list))]);
            match output::to_standard(json.to_string().as_bytes()) {
                Ok(()) => NO,
                Err(failure) => failed(&failure, false),
            }
        }
        Failure::Refused(refused) => {
            for one in refused {
                output::to_error(&one.to_string());
            }
            NO
        }
        Failure::Usage(words) | Failure::File(words) => {
            output::to_error(&format!("{}\n", printable(words.trim_end())));
            WRONG
        }
    }
}
