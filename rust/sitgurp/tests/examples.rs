//! Every table sheet of examples/ gives what stands beside it: its settled net sheet, or its refusal.

use sitgurp::Picture;
use std::fs;
use std::path::Path;
use std::process::Command;

#[test]
fn every_example_gives_what_stands_beside_it() {
    let folder = Path::new(env!("CARGO_MANIFEST_DIR")).join("../../examples");
    let mut count = 0;
    for entry in fs::read_dir(folder).expect("examples/") {
        let path = entry.expect("a file").path();
        if path.extension().is_none_or(|ending| ending != "table") {
            continue;
        }
        let sheet = fs::read(&path).expect("a table sheet");
        match sitgurp::made(&sheet) {
            Ok(net) => {
                assert_eq!(
                    net,
                    fs::read(path.with_extension("net")).expect("its net sheet")
                );
                let mut cells = [0; sitgurp::MOST_CELLS];
                assert_eq!(
                    sitgurp::check(&net, &sheet, &mut cells),
                    Ok(sitgurp::Verdict::Agree)
                );
            }
            Err(refusal) => {
                let text = format!("number place\n{} {}\n", refusal.number, refusal.place);
                assert_eq!(
                    text.as_bytes(),
                    fs::read(path.with_extension("refusal")).expect("its refusal")
                );
            }
        }
        count += 1;
    }
    assert!(count >= 4, "only {count} examples");
}

/// The letter, in text and as a graymap, and what the net of the shades prints from it: the light is that of the cell above, the near cell that to the
/// left.
#[test]
fn the_letter_prints_what_stands_beside_it() {
    let folder = Path::new(env!("CARGO_MANIFEST_DIR")).join("../../examples");
    let text = |name: &str| fs::read_to_string(folder.join(name)).expect("an example");
    let letter = Picture::from_text(&text("letter.txt")).expect("a picture");
    let net = text("shade.net");
    let shaded =
        sitgurp::glyph_of(net.as_bytes(), &letter, &[0, 0, 0, -1, -1, 0]).expect("a glyph");
    assert_eq!(shaded.to_text(), text("shaded.txt"));
    for (picture, name) in [(letter, "letter.pgm"), (shaded, "shaded.pgm")] {
        assert_eq!(picture.to_pgm(4), text(name));
        assert_eq!(Picture::from_pgm(&text(name)), Some((picture, 4)));
    }
}

#[test]
fn the_rule_written_for_awk_gives_its_table() {
    let folder = Path::new(env!("CARGO_MANIFEST_DIR")).join("../../examples");
    let written = Command::new("awk")
        .arg("-f")
        .arg(folder.join("shade.awk"))
        .output()
        .expect("awk runs");
    assert_eq!(
        written.stdout,
        fs::read(folder.join("shade.table")).expect("a table sheet")
    );
}

#[test]
fn what_a_spreadsheet_exported_is_tidied() {
    let folder = Path::new(env!("CARGO_MANIFEST_DIR")).join("../../examples");
    let exported = fs::read(folder.join("export.txt")).expect("a loose table sheet");
    let table = fs::read(folder.join("export.table")).expect("a table sheet");
    assert_eq!(sitgurp::tidied(&exported), Ok(table.clone()));
    assert_eq!(sitgurp::tidied(&table), Ok(table));
}
