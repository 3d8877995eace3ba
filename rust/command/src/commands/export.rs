//! `export`: a net or a table in a format of the field.

use super::Command;
use crate::call::{Call, Opt};
use crate::csv::Csv;
use crate::input::{sheets, Sheet};
use crate::json::Json;
use crate::outcome::{Answer, Failure};
use crate::refused::{self, Refused};
use crate::words::count;
use sitgurp::{Net, Table, Verdict};

pub static COMMAND: Command = Command {
    name: "export",
    usage: "[SHEET] --blif | --blif-mv | --verilog | --c | --pla | --csv [--name NAME]",
    summary: "a net as BLIF, BLIF-MV, Verilog or C; a table as PLA or CSV",
    help: "\
A net keeps its wiring and the order of its gates; gate 1 is called `gate_1`, and the output `ink`. For --pla and --csv the sheet is a table,
or a net, whose table is then written. BLIF, BLIF-MV, PLA and CSV are read again before they are written, and the library compares the table.
",
    sheets: 1,
    more: false,
    options: &[
        format("--blif", "blif").says("write a net of two levels for logic synthesis, such as ABC"),
        format("--blif-mv", "mv").says("the same for any number of levels"),
        format("--verilog", "v").says("write a module, and a test bench that compares every row"),
        format("--c", "c").says("write a function of a byte for each input, with constant tables"),
        format("--pla", "pla").says("write a table of two levels with all its rows; `-` is an open cell"),
        format("--csv", "csv").says("write a table for a spreadsheet; `tidy --csv` reads it back"),
        Opt::value("--name", "NAME").says("what the model, the module or the function is called; `tree` if this is not given"),
    ],
    // each format has its own
    ending: Some("FORMAT"),
    run,
};

const fn format(name: &'static str, ending: &'static str) -> Opt {
    Opt {
        ending: Some(ending),
        ..Opt::flag(name)
    }
}

/// The place of the levels in a sheet.
const LEVELS: usize = "levels inputs\n".len();

fn run(call: &Call) -> Result<Answer, Failure> {
    let formats = COMMAND
        .options
        .iter()
        .filter(|option| option.ending.is_some());
    let given: Vec<&str> = formats
        .map(|option| option.name)
        .filter(|name| call.has(name))
        .collect();
    let [format] = given[..] else {
        return Err(call.wrong(
            "name one format: --blif, --blif-mv, --verilog, --c, --pla or --csv".to_string(),
        ));
    };
    let name = call.value("--name").unwrap_or_else(|| "tree".to_string());
    if !formats::is_identifier(&name) {
        return Err(call.wrong(format!("--name takes letters, digits and `_`, a letter first, and no word of C or Verilog, not `{name}`")));
    }
    let [sheet] = sheets(call)?;
    let text = match format {
        "--pla" => pla(&sheet)?,
        "--csv" => csv(&table(&sheet)?),
        "--verilog" => formats::verilog(&refused::net(&sheet)?, &name),
        "--c" => formats::c(&refused::net(&sheet)?, &name),
        "--blif-mv" => blif_mv(&sheet, &name)?,
        _ => blif(&sheet, &name)?,
    };
    let json = Json::object([
        ("format", Json::text(format.trim_start_matches('-'))),
        ("text", Json::text(&text)),
    ]);
    Ok(Answer::new(text, json))
}

/// Reads a table, or takes that of a net.
fn table(sheet: &Sheet) -> Result<Table, Failure> {
    match Net::read(&sheet.bytes) {
        Ok(net) => Ok(net.table()),
        Err(_) => Ok(refused::table(sheet)?),
    }
}

fn blif(sheet: &Sheet, name: &str) -> Result<String, Failure> {
    let net = refused::net(sheet)?;
    match formats::blif(&net, name) {
        Some(text) => Ok(checked(&net, text)),
        None => Err(two_levels(sheet, "BLIF", net.levels())
            .hinted("`--blif-mv` takes any number of levels".to_string())
            .into()),
    }
}

fn blif_mv(sheet: &Sheet, name: &str) -> Result<String, Failure> {
    let net = refused::net(sheet)?;
    let text = formats::blif_mv(&net, name);
    Ok(checked(&net, text))
}

fn pla(sheet: &Sheet) -> Result<String, Failure> {
    let table = table(sheet)?;
    let Some(text) = formats::pla(&table) else {
        return Err(two_levels(sheet, "a PLA", table.levels()).into());
    };
    let read = formats::table_of_pla(text.as_bytes(), None).map(|read| read.sheet);
    assert_eq!(read.as_ref(), Ok(&table), "the PLA has the table");
    Ok(text)
}

/// Of a sheet with more levels than a format has.
fn two_levels(sheet: &Sheet, format: &str, levels: usize) -> Refused {
    Refused::of_format(
        sheet,
        LEVELS,
        format!(
            "{format} has two levels, and this sheet has {}",
            count(levels, "level")
        ),
    )
}

/// Returns the BLIF of a net once the library has compared it.
fn checked(net: &Net, text: String) -> String {
    let read = formats::net_of_blif(text.as_bytes(), None).expect("what was written");
    assert_eq!(
        read.sheet.check(&net.table()),
        Ok(Verdict::Agree),
        "the model has the net's table"
    );
    text
}

fn csv(table: &Table) -> String {
    let text = formats::csv(table);
    let tidied = sitgurp::tidied(&Csv::of(text.as_bytes()).text);
    assert_eq!(
        tidied.as_deref(),
        Ok(table.as_ref()),
        "the CSV has the table"
    );
    text
}
