//! `import`: a net or a table from a format of the field.

use super::Command;
use crate::call::{Call, Opt};
use crate::input::{sheets, Sheet};
use crate::json::Json;
use crate::outcome::{Answer, Failure};
use crate::refused::Refused;
use crate::words;
use formats::{Fault, Kind, Read};

pub static COMMAND: Command = Command {
    name: "import",
    usage: "[FILE] [--table] [--output NAME]",
    summary: "a net sheet from BLIF or BLIF-MV, a table sheet from a PLA",
    help: "\
The format is found in the file. In BLIF and BLIF-MV the tables are a tree: every input and every table is read once. Tables of one input and
constants become part of the gates beside them; a table of more inputs is split into gates of two, if that is possible. Names that no sheet can
have are changed, which is reported on standard error. In a PLA a don't-care is an open cell. The library checks the table of what is written.
",
    sheets: 1,
    more: false,
    options: &[
        Opt {
            ending: Some("table"),
            ..Opt::flag("--table").says("write the table of a model, which need not be a tree")
        },
        Opt::value("--output", "NAME").says("take this output of several; a net then has just the inputs that it reads"),
    ],
    ending: Some("net"),
    run,
};

fn run(call: &Call) -> Result<Answer, Failure> {
    let output = call.value("--output");
    let output = output.as_deref();
    let [sheet] = sheets(call)?;
    let refused = |fault: Fault| Refused::of_format(&sheet, fault.place, fault.words);
    let wants_table = call.has("--table");
    match formats::kind(&sheet.bytes) {
        Some(Kind::Blif) if wants_table => {
            let read = formats::table_of_blif(&sheet.bytes, output).map_err(refused)?;
            let json = ("table", crate::sheets::table(&read.sheet));
            Ok(answer(call, &sheet, read.sheet.as_str(), json, &read))
        }
        Some(Kind::Blif) => {
            let read = formats::net_of_blif(&sheet.bytes, output).map_err(|fault| {
                let (program, operand) = (words::program(), sheet.operand());
                let chosen = output.map_or(String::new(), |name| format!(" --output {}", words::quoted(name.as_ref())));
                let has_table = formats::table_of_blif(&sheet.bytes, output).is_ok();
                let refused = refused(fault);
                match has_table {
                    true => refused.hinted(format!("`{program} import --table{chosen}{operand}` writes its table, which may have another tree")),
                    false => refused,
                }
            })?;
            let json = ("net", crate::sheets::net(&read.sheet));
            Ok(answer(call, &sheet, read.sheet.as_str(), json, &read))
        }
        Some(Kind::Pla) => {
            // with -d the file's ending is known before the file is
            if call.of_many && call.lent.is_none() && !wants_table {
                return Err(refused_whole(
                    &sheet,
                    "a PLA is a table: with -d, tables are written with --table",
                ));
            }
            let read = formats::table_of_pla(&sheet.bytes, output).map_err(refused)?;
            let json = ("table", crate::sheets::table(&read.sheet));
            Ok(answer(call, &sheet, read.sheet.as_str(), json, &read))
        }
        None => Err(refused_whole(
            &sheet,
            "this is no BLIF, BLIF-MV or PLA: no line begins with `.model`, `.inputs` or `.i`",
        )),
    }
}

fn refused_whole(sheet: &Sheet, words: &str) -> Failure {
    Refused::of_format(sheet, 0, words.to_string()).into()
}

/// Writes the sheet, and reports new names and whatever else its reader should know.
fn answer<S>(call: &Call, sheet: &Sheet, text: &str, json: (&str, Json), read: &Read<S>) -> Answer {
    let renamed = read
        .renamed
        .iter()
        .map(|(own, name)| (own.clone(), Json::text(name)));
    let json = Json::object([
        json,
        ("renamed", Json::Object(renamed.collect())),
        ("notes", Json::texts(&read.notes)),
    ]);
    let mut answer = Answer::new(text, json);
    if call.json {
        return answer;
    }
    let names: Vec<String> = read
        .renamed
        .iter()
        .map(|(own, name)| format!("`{own}` is `{name}`"))
        .collect();
    let mut notes = read.notes.clone();
    if !names.is_empty() {
        notes.insert(0, format!("new names: {}", names.join(", ")));
    }
    for note in notes {
        answer = answer.note(format!("{}: {}\n", sheet.name, words::printable(&note)));
    }
    answer
}
