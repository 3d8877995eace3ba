//! `keep`: a net's wiring, its gates filled anew for another table.

use super::Command;
use crate::call::Call;
use crate::excerpt::line_start;
use crate::input::{sheets, Sheet};
use crate::json::Json;
use crate::outcome::{Answer, Failure};
use crate::refused::{self, Refused};
use crate::words::{self, count, list};
use sitgurp::{Kind, Net, Refusal, Table, Wire};

pub static COMMAND: Command = Command {
    name: "keep",
    usage: "NET [TABLE]",
    summary: "a net's wiring with its gates filled anew for a table",
    help: "\
Writes the net sheet with the gate tables that give it the table; which gate joins what, on which side and in which line stays as it is.
The gates with new tables are listed on standard error. Where no gate tables give this wiring the table, it is refused, with the gate at
fault, or the inputs that the net leaves out and the table needs.
",
    sheets: 2,
    more: false,
    options: &[],
    ending: None,
    run,
};

fn run(call: &Call) -> Result<Answer, Failure> {
    let sheets = sheets(call)?;
    let (net, table) = refused::net_and_table(&sheets)?;
    let [net_sheet, table_sheet] = &sheets;
    let (kept, changed) =
        sitgurp::kept(net.as_ref(), table.as_ref()).map_err(|refusal| match refusal.kind() {
            Kind::HeadersDiffer => refused::headers_differ(&sheets, &net.table(), &table, refusal),
            Kind::OpenCell => Refused::of_table(table_sheet, &table, refusal),
            _ => of_wiring((net_sheet, &net), (table_sheet, &table), refusal),
        })?;
    let kept = Net::read(&kept).expect("a sheet that the library has written");
    let numbers = changed.iter().map(|&gate| Json::number(gate)).collect();
    let json = Json::object([
        ("changed", Json::List(numbers)),
        ("net", crate::sheets::net(&kept)),
    ]);
    let answer = Answer::new(kept.as_str(), json);
    Ok(match call.json {
        true => answer,
        false => answer.note(told(&changed)),
    })
}

/// The gates whose tables are new.
fn told(changed: &[usize]) -> String {
    let numbers: Vec<String> = changed.iter().map(usize::to_string).collect();
    match &numbers[..] {
        [] => "no gate's table changed\n".to_string(),
        [gate] => format!("gate {gate} has a new table\n"),
        gates => format!("gates {} have new tables\n", list(gates)),
    }
}

/// What another wiring comes to.
fn next(table: &Table, operand: &str) -> String {
    let program = words::program();
    match table.settled() {
        Ok(_) => format!("`{program} make{operand}` makes a tree of another wiring"),
        Err(_) => {
            format!("no other wiring has it either; `{program} why{operand}` says what to change")
        }
    }
}

/// The inputs that the net leaves out, and the table needs.
fn left_out(net: (&Sheet, &Net), table: (&Sheet, &Table), refusal: Refusal) -> Refused {
    let (sheet, net) = net;
    let (table_sheet, table) = table;
    // an input matters where its levels are not all of one class
    let matters = |input: &usize| {
        table
            .multiplicity(1 << input)
            .is_ok_and(|classes| classes > 1)
    };
    let inputs = net.unused().into_iter().filter(matters);
    let names: Vec<&str> = inputs.map(|input| net.names()[input].as_str()).collect();
    let verb = if names.len() == 1 {
        "matters"
    } else {
        "matter"
    };
    let sentence = format!(
        "this net leaves out {}, which {verb} in {}: no gate tables give this wiring that table",
        list(&names),
        table_sheet.name
    );
    let hint = next(table, &table_sheet.operand());
    Refused::of_file(sheet, refusal, sentence).hinted(hint)
}

/// The gate that cannot tell its classes apart.
fn of_wiring(net: (&Sheet, &Net), table: (&Sheet, &Table), refusal: Refusal) -> Refused {
    if refusal.place == 0 {
        return left_out(net, table, refusal);
    }
    let (sheet, net) = net;
    let (table_sheet, table) = table;
    let gate = refusal.place;
    let group = groups(net)[gate - 1];
    let names: Vec<&str> = names(net, group);
    let classes = table.multiplicity(group).expect("a group of the table");
    let sentence = format!(
        "gate {gate} joins {}, which have {} classes in {}, and a wire carries {}: no gate tables give this wiring that table",
        list(&names),
        classes,
        table_sheet.name,
        count(net.levels(), "level")
    );
    let (program, operand) = (words::program(), table_sheet.operand());
    let hint = format!(
        "`{program} matrix{operand} --group {}` shows the classes; {}",
        names.join(","),
        next(table, &operand)
    );
    Refused::at(sheet, line_start(&sheet.bytes, gate + 3), refusal, sentence).hinted(hint)
}

/// The inputs below each gate: bit i of its number is input i.
fn groups(net: &Net) -> Vec<usize> {
    let mut groups: Vec<usize> = Vec::new();
    for gate in net.gates() {
        let below = |wire| match wire {
            Wire::Input(input) => 1 << input,
            Wire::Gate(gate) => groups[gate],
        };
        groups.push(below(gate.left) | below(gate.right));
    }
    groups
}

fn names(net: &Net, group: usize) -> Vec<&str> {
    let names = net.names().iter().enumerate();
    let names = names.filter(|(input, _)| group >> input & 1 == 1);
    names.map(|(_, name)| name.as_str()).collect()
}
