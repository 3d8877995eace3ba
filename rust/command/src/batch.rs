//! Many sheets at once, on all cores. One that is refused stops no other.

use crate::call::Call;
use crate::identity::Identity;
use crate::json::Json;
use crate::outcome::{self, Failure, GOOD, NO, WRONG};
use crate::output;
use crate::progress::Progress;
use crate::words::{count, file_name, thousands};
use std::collections::{BTreeMap, BTreeSet};
use std::ffi::OsStr;
use std::fs;
use std::path::{Path, PathBuf};
use std::sync::atomic::{AtomicUsize, Ordering};
use std::sync::mpsc;
use std::thread;

/// What came of a sheet: the notes on it where its file was written, or why there is none.
type Done = Result<Vec<String>, Failure>;

/// Runs the command for each sheet, and returns the status.
pub fn run(call: &Call) -> u8 {
    let folder = call.folder.as_deref().unwrap_or(OsStr::new("."));
    let progress = Progress::of(call.operands.len());
    progress.at(0);
    let targets = match targets(call, Path::new(folder)) {
        Ok(targets) => targets,
        Err(failure) => {
            progress.end();
            return outcome::failed(&failure, false);
        }
    };
    let results = all(call, &targets, &progress);
    tell(call, folder, &targets, &results)
}

/// Lists the file for each sheet. No two sheets have the same one, and none is a sheet itself.
fn targets(call: &Call, folder: &Path) -> Result<Vec<PathBuf>, Failure> {
    fs::create_dir_all(folder)
        .map_err(|error| crate::input::cannot("write", &file_name(folder.as_os_str()), &error))?;
    let ending = call.ending().unwrap_or("out");
    let sheets = call.operands.iter().map(Path::new);
    let read: BTreeSet<Identity> = sheets.filter_map(Identity::at).collect();
    let mut taken = BTreeMap::new();
    let mut targets = Vec::new();
    for sheet in &call.operands {
        let name = Path::new(sheet).file_stem().filter(|_| sheet != "-");
        let name = name.ok_or_else(|| call.wrong("with -d every sheet is a file".to_string()))?;
        let mut file = name.to_owned();
        file.push(".");
        file.push(ending);
        let target = folder.join(file);
        // by its path behind all links, or by the file where there is one
        let known = Identity::at(&target);
        let path = output::behind_links(&target).unwrap_or_else(|_| target.clone());
        let by_name = taken.insert(Place::Path(path), sheet);
        let by_file = known.and_then(|known| taken.insert(Place::File(known), sheet));
        if let Some(other) = by_name.or(by_file) {
            return Err(call.wrong(format!(
                "`{}` and `{}` would be written to the same file",
                file_name(other),
                file_name(sheet)
            )));
        }
        if known.is_some_and(|known| read.contains(&known)) {
            return Err(call.wrong(format!(
                "`{}` is one of the sheets, and would be written over: name another folder",
                file_name(target.as_os_str())
            )));
        }
        targets.push(target);
    }
    Ok(targets)
}

/// Where a result is written.
#[derive(PartialEq, Eq, PartialOrd, Ord)]
enum Place {
    Path(PathBuf),
    File(Identity),
}

/// Every sheet's result, in the order of the sheets.
fn all(call: &Call, targets: &[PathBuf], progress: &Progress) -> Vec<Done> {
    let total = targets.len();
    let cores = thread::available_parallelism().map_or(1, |cores| cores.get());
    let next = AtomicUsize::new(0);
    let (sender, receiver) = mpsc::channel();
    let mut results: Vec<Option<Done>> = (0..total).map(|_| None).collect();
    thread::scope(|scope| {
        for _ in 0..cores.min(total) {
            let (sender, next) = (sender.clone(), &next);
            scope.spawn(move || loop {
                let k = next.fetch_add(1, Ordering::Relaxed);
                let Some(target) = targets.get(k) else { break };
                if sender
                    .send((k, one(call, &call.operands[k], target)))
                    .is_err()
                {
                    break;
                }
            });
        }
        for (done, (k, result)) in receiver.iter().take(total).enumerate() {
            results[k] = Some(result);
            progress.at(done + 1);
        }
    });
    progress.end();
    results.into_iter().flatten().collect()
}

/// Writes the result of one sheet. It counts once its file is there.
fn one(call: &Call, sheet: &OsStr, target: &Path) -> Done {
    let call = call.of_sheet(sheet);
    let answer = (call.command.run)(&call)?;
    call.may_write(target)?;
    output::to_file(target, &answer.text)?;
    fs::metadata(target)
        .map_err(|error| crate::input::cannot("write", &file_name(target.as_os_str()), &error))?;
    Ok(answer.notes)
}

/// Says what was refused and what was done, and gives the status: the worst of all.
fn tell(call: &Call, folder: &OsStr, targets: &[PathBuf], results: &[Done]) -> u8 {
    let mut status = GOOD;
    let (mut written, mut refused, mut failed) = (0, 0, 0);
    let mut list = Vec::new();
    for ((result, target), sheet) in results.iter().zip(targets).zip(&call.operands) {
        let sheet = Json::text(sheet.to_string_lossy());
        list.push(match result {
            Ok(notes) => {
                written += 1;
                notes.iter().for_each(|note| output::to_error(note));
                let target = Json::text(target.to_string_lossy());
                Json::object([("file", sheet), ("written", target)])
            }
            Err(failure) => {
                let is_refusal = matches!(failure, Failure::Refused(_));
                refused += usize::from(is_refusal);
                failed += usize::from(!is_refusal);
                if !call.json || !is_refusal {
                    outcome::failed(failure, false);
                }
                status = status.max(if is_refusal { NO } else { WRONG });
                told(sheet, failure)
            }
        });
    }
    let folder = file_name(folder);
    let mut words = format!(
        "{}: {} written to {folder}",
        count(results.len(), "sheet"),
        thousands(written)
    );
    if refused > 0 {
        words += &format!(", {} refused", thousands(refused));
    }
    if failed > 0 {
        words += &format!(", {} not read or not written", thousands(failed));
    }
    let text = match call.json {
        true => Json::object([("sheets", Json::List(list))]).to_string(),
        false => words + "\n",
    };
    status.max(outcome::said(text))
}

fn told(sheet: Json, failure: &Failure) -> Json {
    match failure {
        Failure::Refused(refused) => {
            let refused = refused.iter().map(|one| one.json()).collect();
            Json::object([("file", sheet), ("refused", Json::List(refused))])
        }
        Failure::Usage(words) | Failure::File(words) => {
            Json::object([("file", sheet), ("error", Json::text(words))])
        }
    }
}
