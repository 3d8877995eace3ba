//! The page with a table inside. It is sitgurp.html, which web/build writes: the table's sheet is put in it for its scripts, and beside that the table with
//! its tree, or why there is none, for a browser that runs no scripts.

mod shown;

use crate::input::cannot;
use crate::outcome::Failure;
use crate::words::file_name;
use sitgurp::Table;
use std::path::{Path, PathBuf};

/// The variable that names the page's file, if it is not the installed one.
const VARIABLE: &str = "SITGURP_PAGE";
/// Where the installed page is, from the folder above the command's.
const INSTALLED: &str = "share/sitgurp/sitgurp.html";

/// The elements that are filled. Each is in the page once.
const SHEET: [&str; 2] = [
    "<script type=\"text/plain\" id=\"sitgurp-sheet\">",
    "</script>",
];
const SHOWN: [&str; 2] = ["<div id=\"static\">", "</div>"];
const TITLE: [&str; 2] = ["<title>Sitgurp", "</title>"];

/// Returns the page of a table, with lists of at most so many lines; `name` is what the table is called, such as its file's name.
pub fn page(name: &str, table: &Table, most: usize) -> Result<String, Failure> {
    let file = file();
    let page = std::fs::read_to_string(&file).map_err(|error| unreadable(&file, &error))?;
    let title = shown::text(&shown::title(name));
    let parts = [
        (TITLE, format!(": {title}")),
        // an accepted sheet has letters, digits, spaces, `-` and line feeds alone
        (SHEET, format!("\n{table}")),
        (SHOWN, format!("\n{}", shown::shown(name, table, most))),
    ];
    let filled = parts
        .into_iter()
        .try_fold(page, |page, (element, text)| filled(&page, element, &text));
    filled.ok_or_else(|| {
        let file = file_name(file.as_os_str());
        Failure::File(format!(
            "{file}: is not the page of Sitgurp that web/build writes"
        ))
    })
}

/// Returns the page's file: the one that the variable names, or the one that is installed with the command.
fn file() -> PathBuf {
    match std::env::var_os(VARIABLE) {
        Some(file) => PathBuf::from(file),
        None => installed().unwrap_or_else(|| PathBuf::from(INSTALLED)),
    }
}

/// Returns the page's place beside the command, which is in a folder `bin`.
fn installed() -> Option<PathBuf> {
    let command = std::env::current_exe().ok()?;
    Some(command.parent()?.parent()?.join(INSTALLED))
}

/// Says that the page cannot be read, and where it should be.
fn unreadable(file: &Path, error: &std::io::Error) -> Failure {
    match cannot("read", &file_name(file.as_os_str()), error) {
        Failure::File(words) => Failure::File(format!(
            "{words}\n./install puts the page there; {VARIABLE} names another place"
        )),
        other => other,
    }
}

/// Puts a text into an empty element of the page. Returns none unless the element is there exactly once.
fn filled(page: &str, [opening, closing]: [&str; 2], text: &str) -> Option<String> {
    let (before, after) = page.split_once(&format!("{opening}{closing}"))?;
    let again = after.contains(&format!("{opening}{closing}"));
    (!again).then(|| format!("{before}{opening}{text}{closing}{after}"))
}
