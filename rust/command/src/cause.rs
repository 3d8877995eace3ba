//! What has likely gone wrong with a refused sheet. A repair is tried on a copy, and the library asked again: where it then gets further, what was repaired
//! is the likely cause.

use crate::csv::Csv;
use crate::refused::judged;
use crate::repairs::{wide_encoding, Repair, REPAIRS};
use crate::sentence::{Due, Front};
use crate::words::{self, count};
use sitgurp::{Kind, Net, Refusal, Table};
use std::collections::BTreeSet;

/// Lists the likely causes of a refusal, each with what to do. The list is empty where none of the usual mistakes explains it.
pub fn causes(due: Due, sheet: &[u8], refusal: &Refusal, inputs: &[String]) -> Vec<String> {
    match encoding(sheet).or_else(|| other_sheet(due, sheet)) {
        Some(words) => vec![words],
        None => usual(due, sheet, refusal, inputs),
    }
}

/// Lists the likely causes of a refusal of CSV.
pub fn causes_in_csv(file: &[u8], csv: &Csv, refusal: &Refusal) -> Vec<String> {
    match encoding(file).or_else(|| csv.cause(refusal.place)) {
        Some(words) => vec![words],
        None => usual(Due::Csv, &csv.text, refusal, &[]),
    }
}

fn encoding(file: &[u8]) -> Option<String> {
    let encoding = wide_encoding(file)?;
    Some(format!(
        "the file is {encoding}; save it as plain text, UTF-8 or ASCII"
    ))
}

/// Lists the usual mistakes that explain a refusal. One that the sheet itself does not have is left out, even if mending others leaves it behind.
fn usual(due: Due, sheet: &[u8], refusal: &Refusal, inputs: &[String]) -> Vec<String> {
    let mut causes = Vec::new();
    let mut copy = sheet.to_vec();
    let mut current = Some(refusal.clone());
    while let Some(fault) = &current {
        let front = Front::of(due, &copy, fault, inputs);
        let of_lines = of_rows(&front, fault.kind())
            .or_else(|| of_gates(&front, fault.kind()))
            .or_else(|| of_names(&front, fault.kind()));
        if let Some(words) = of_lines {
            causes.push(words);
            break;
        }
        let Some(repaired) = repaired(due, &copy, fault, inputs) else {
            break;
        };
        let repairs = repaired.repairs.iter();
        let own = repairs.filter(|repair| (repair.mend)(sheet) != sheet);
        causes.extend(own.map(|repair| repair.words.to_string()));
        copy = repaired.sheet;
        current = repaired.refusal;
    }
    causes
}

/// What the fewest of the repairs that get the library further leave, and what is then refused.
struct Repaired {
    repairs: Vec<&'static Repair>,
    sheet: Vec<u8>,
    refusal: Option<Refusal>,
    /// How much was read.
    read: usize,
}

impl Repaired {
    fn by(due: Due, sheet: &[u8], repairs: Vec<&'static Repair>, inputs: &[String]) -> Repaired {
        let mended = repairs
            .iter()
            .fold(sheet.to_vec(), |sheet, repair| (repair.mend)(&sheet));
        let refusal = judged(due, &mended, inputs).err();
        let read = match &refusal {
            None => usize::MAX,
            Some(refusal) => content(&mended[..refusal.place.min(mended.len())]),
        };
        Repaired {
            repairs,
            sheet: mended,
            refusal,
            read,
        }
    }
}

/// Tries all repairs at once, and then leaves out each that is not needed to get as far.
fn repaired(due: Due, sheet: &[u8], fault: &Refusal, inputs: &[String]) -> Option<Repaired> {
    let all = REPAIRS.iter().filter(|repair| repair.sheets.contains(&due));
    let all: Vec<&Repair> = all.collect();
    let mut best = Repaired::by(due, sheet, all.clone(), inputs);
    if best.read <= content(&sheet[..fault.place.min(sheet.len())]) {
        return None;
    }
    for repair in all {
        let mut fewer = best.repairs.clone();
        fewer.retain(|other| !std::ptr::eq(*other, repair));
        let without = Repaired::by(due, sheet, fewer, inputs);
        if without.read >= best.read {
            best = without;
        }
    }
    Some(best)
}

/// How much has been read, whatever parts it.
fn content(bytes: &[u8]) -> usize {
    bytes
        .iter()
        .filter(|byte| byte.is_ascii_alphanumeric())
        .count()
}

/// A sheet of another kind than the one that is due.
fn other_sheet(due: Due, sheet: &[u8]) -> Option<String> {
    let name = match due {
        Due::Table | Due::Loose | Due::Csv | Due::Arrivals if Net::read(sheet).is_ok() => {
            Due::Net.name()
        }
        Due::Net | Due::Arrivals if Table::read(sheet).is_ok() => Due::Table.name(),
        _ if sheet.starts_with(b"name from to") && due != Due::Arrivals => Due::Arrivals.name(),
        _ => return None,
    };
    let program = words::program();
    let made = match (due, name == Due::Table.name()) {
        (Due::Net, true) => format!("; `{program} make` makes the net of a table"),
        _ => String::new(),
    };
    Some(format!(
        "this is {name}, and {} is due here{made}",
        due.name()
    ))
}

/// Rows that are missing, repeated, or in another order.
fn of_rows(front: &Front, kind: Kind) -> Option<String> {
    if kind != Kind::Row || front.due != Due::Table {
        return None;
    }
    let due = front.line - 4;
    let rows: Vec<Option<usize>> = front
        .sheet
        .split(|&byte| byte == b'\n')
        .skip(3)
        .filter(|line| !line.trim_ascii().is_empty())
        .map(|line| front.index_of(line))
        .collect();
    let known: BTreeSet<usize> = rows.iter().flatten().copied().collect();
    let here = rows.get(due).copied().flatten()?;
    let levels = |index| words::levels(&front.row(index));
    if known.len() == front.rows() && rows.len() == front.rows() {
        return Some(
            "all rows are there, but in another order: count upward, the last input fastest"
                .to_string(),
        );
    }
    if !known.contains(&due) && here == due + 1 {
        return Some(format!(
            "the row `{}` is missing: there are {} where {} are due",
            levels(due),
            count(rows.len(), "row"),
            front.rows()
        ));
    }
    if !known.contains(&due) && here > due {
        return Some(format!(
            "{} missing, from `{}` to `{}`",
            format_args!("{} are", count(here - due, "row")),
            levels(due),
            levels(here - 1)
        ));
    }
    if here < due {
        return Some(format!(
            "the row `{}` is there twice, in lines {} and {}",
            levels(here),
            here + 4,
            front.line
        ));
    }
    None
}

/// More names in line 3 than line 2 says.
fn of_names(front: &Front, kind: Kind) -> Option<String> {
    let extra = kind == Kind::Layout && front.names_too_many().is_some();
    extra.then(|| {
        "a name has a space in it, which makes it two, or the number of inputs in line 2 is wrong"
            .to_string()
    })
}

/// The last lines of a net that uses every input: gates are left that no line joins.
fn of_gates(front: &Front, kind: Kind) -> Option<String> {
    let gates = front.references();
    let is_used = |name: &String| gates.concat().contains(name);
    if kind != Kind::UnusedGate || !front.names.iter().all(is_used) {
        return None;
    }
    let mut loose = front.unused_gates();
    loose.push(gates.len());
    let numbers: Vec<String> = loose.iter().map(usize::to_string).collect();
    let numbers = words::list(&numbers);
    Some(match loose.len() - 1 {
        1 => format!("the last line is missing, which joins gates {numbers}"),
        lines => format!("the last {lines} lines are missing, which join gates {numbers}"),
    })
}
