//! A line of the stream: the call that it asks for, and what is answered.

use super::json::{Read, Reader};
use super::LONGEST;
use crate::call::{self, Call};
use crate::commands;
use crate::json::Json;
use crate::outcome::{Answer, Failure, GOOD, NO, WRONG};
use crate::refused::Refused;
use crate::words::thousands;
use std::ffi::OsString;
use std::panic::{catch_unwind, AssertUnwindSafe};

/// A line of the stream, by its number from 1; no bytes where it was too long.
pub struct Line {
    pub number: usize,
    pub bytes: Option<Vec<u8>>,
}

/// What a line asks for.
#[derive(Default)]
struct Request<'a> {
    /// As it is written in the line.
    id: Option<&'a str>,
    call: Option<String>,
    sheets: Option<Vec<String>>,
    /// Further words, as on the command line.
    words: Option<Vec<String>>,
}

/// Returns the answer to a line, with its line feed.
pub fn answered(line: &Line) -> String {
    let Some(bytes) = &line.bytes else {
        let most = thousands(LONGEST);
        let words = format!("the line is longer than {most} bytes");
        return error("null", line.number, &words);
    };
    let Ok(text) = std::str::from_utf8(bytes) else {
        return error("null", line.number, "the line is no UTF-8");
    };
    let mut request = Request::default();
    let read = request.read(text);
    let id = request.id.unwrap_or("null");
    // an answer for each line, even if a call should have a fault
    let result = match read {
        Ok(()) => catch_unwind(AssertUnwindSafe(|| called(&request)))
            .unwrap_or_else(|_| Err(Failure::Usage("the call has failed".to_string()))),
        Err(words) => Err(Failure::Usage(words)),
    };
    match result {
        Ok(answer) => {
            let status = if answer.no { NO } else { GOOD };
            object(id, status, "answer", &answer.json)
        }
        Err(Failure::Refused(refused)) => {
            let list = refused.iter().map(Refused::json).collect();
            object(id, NO, "refused", &Json::List(list))
        }
        Err(Failure::Usage(words) | Failure::File(words)) => error(id, line.number, &words),
    }
}

impl<'a> Request<'a> {
    /// Reads the members of the object that a line is. What was read before a fault is there.
    fn read(&mut self, line: &'a str) -> Read<()> {
        if line.trim().is_empty() {
            return Err("the line is blank".to_string());
        }
        let mut reader = Reader::of(line);
        reader.object(|reader, name| {
            let once = match name.as_str() {
                "id" => self.id.replace(reader.raw()?).is_none(),
                "call" => self.call.replace(reader.text()?).is_none(),
                "sheets" => self.sheets.replace(reader.texts()?).is_none(),
                "words" => self.words.replace(reader.texts()?).is_none(),
                _ => {
                    return Err(format!(
                        "there is no member `{name}`; the members are id, call, sheets and words"
                    ))
                }
            };
            match once {
                true => Ok(()),
                false => Err(format!("the member `{name}` is there twice")),
            }
        })?;
        reader.end()
    }
}

/// Calls the command that a line asks for.
fn called(request: &Request) -> Result<Answer, Failure> {
    let usage = |words: String| Failure::Usage(words);
    let name = request.call.as_deref();
    let name = name.ok_or_else(|| usage("the member `call` is missing".to_string()))?;
    let known = commands::ALL.iter().find(|command| command.name == name);
    let known = known.filter(|command| !command.is_stream());
    let command = known.ok_or_else(|| usage(format!("there is no call `{name}`")))?;
    let words = request.words.iter().flatten().map(OsString::from);
    let sheets = request.sheets.clone().unwrap_or_default();
    let sheets: Vec<Vec<u8>> = sheets.into_iter().map(String::into_bytes).collect();
    if sheets.len() != command.sheets {
        return Err(usage(format!(
            "`{name}` takes {}, and there are {}",
            crate::words::count(command.sheets, "sheet"),
            sheets.len()
        )));
    }
    let call: Call = call::of_stream(command, words.collect(), sheets)?;
    (command.run)(&call)
}

fn object(id: &str, status: u8, name: &str, value: &Json) -> String {
    // a value ends in a line feed
    format!(
        "{{\"id\":{id},\"status\":{status},\"{name}\":{}}}\n",
        value.to_string().trim_end()
    )
}

fn error(id: &str, number: usize, words: &str) -> String {
    let words = words.lines().next().unwrap_or("");
    let words = Json::text(words).to_string();
    format!(
        "{{\"id\":{id},\"status\":{WRONG},\"error\":{},\"line\":{number}}}\n",
        words.trim_end()
    )
}
