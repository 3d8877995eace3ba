//! `sheets net|table|loose COUNT SEED FOLDER`: writes that many sheets, good and damaged, one per file.

use load::inputs::Inputs;
use std::path::Path;
use std::process::ExitCode;

type Sheet = fn(&mut Inputs) -> Vec<u8>;

fn main() -> ExitCode {
    let arguments: Vec<String> = std::env::args().skip(1).collect();
    match written(&arguments) {
        Some(Ok(())) => ExitCode::SUCCESS,
        Some(Err(error)) => {
            eprintln!("sheets: {error}");
            ExitCode::FAILURE
        }
        None => {
            eprintln!("usage: sheets net|table|loose COUNT SEED FOLDER");
            ExitCode::from(2)
        }
    }
}

/// Returns None if the command is wrong.
fn written(arguments: &[String]) -> Option<std::io::Result<()>> {
    let [kind, count, seed, folder] = arguments else {
        return None;
    };
    let sheet: Sheet = match kind.as_str() {
        "net" => Inputs::net_sheet,
        "table" => Inputs::table_sheet,
        "loose" => Inputs::loose_sheet,
        _ => return None,
    };
    let (count, seed) = (count.parse().ok()?, seed.parse().ok()?);
    Some(write(sheet, count, seed, Path::new(folder)))
}

fn write(sheet: Sheet, count: u64, seed: u64, folder: &Path) -> std::io::Result<()> {
    std::fs::create_dir_all(folder)?;
    for k in 0..count {
        let mut inputs = Inputs::new(load::seed_of(seed, k));
        std::fs::write(folder.join(format!("{k:03}")), sheet(&mut inputs))?;
    }
    Ok(())
}
