//! C programs over include/sitgurp.h and the static library: every call on accepted and refused inputs, in tests/c/calls.c and, of a job, in
//! tests/c/jobs.c.

use std::path::{Path, PathBuf};
use std::process::{Command, Output};

fn repository() -> PathBuf {
    Path::new(env!("CARGO_MANIFEST_DIR")).join("../..")
}

/// What a program of its own says and ends with.
fn run(command: &mut Command) -> Output {
    let name = command.get_program().to_owned();
    command
        .output()
        .unwrap_or_else(|error| panic!("{name:?}: {error}"))
}

fn assert_ends_well(output: &Output) {
    let said = [&output.stdout[..], &output.stderr[..]].concat();
    let said = String::from_utf8_lossy(&said);
    assert!(output.status.success(), "{}\n{said}", output.status);
}

/// The C compiler, as strict as C99 can be had.
fn strict_cc(source: &str) -> Command {
    let mut cc = Command::new("cc");
    cc.args(["-std=c99", "-Wall", "-Wextra", "-Werror", "-pedantic"])
        .arg("-I")
        .arg(repository().join("include"))
        .arg(Path::new(env!("CARGO_MANIFEST_DIR")).join(source));
    cc
}

/// Compiles a program of tests/c against the library, and runs it.
fn runs_well(name: &str) {
    let program = Path::new(env!("CARGO_TARGET_TMPDIR")).join(name);
    let mut cc = strict_cc(&format!("tests/c/{name}.c"));
    cc.arg(repository().join("crates/capi/out/libcapi.a"))
        .arg("-o")
        .arg(&program);
    assert_ends_well(&run(&mut cc));
    assert_ends_well(&run(&mut Command::new(program)));
}

#[test]
fn every_call_from_c() {
    runs_well("calls");
}

#[test]
fn every_call_on_a_job_from_c() {
    runs_well("jobs");
}

fn read(path: &str) -> String {
    std::fs::read_to_string(repository().join(path))
        .unwrap_or_else(|error| panic!("{path}: {error}"))
}

/// The files of a folder, one after the other.
fn read_all(folder: &str) -> String {
    let entries = std::fs::read_dir(repository().join(folder)).expect("a folder");
    let entries = entries.map(|entry| entry.expect("an entry"));
    let files = entries.filter(|entry| entry.path().is_file());
    files
        .map(|file| read(&format!("{folder}/{}", file.file_name().to_string_lossy())))
        .collect()
}

/// A declaration's name, its parameters as names and C types, and its result.
type Declared = (String, Vec<(String, String)>, String);

/// The C type that Rust's type stands for.
fn c_type(rust: &str) -> String {
    let known = match rust {
        "usize" => "size_t",
        "u64" => "uint64_t",
        "u32" => "uint32_t",
        "u8" => "uint8_t",
        "*const u8" => "const uint8_t *",
        "*mut u8" => "uint8_t *",
        "*mut usize" => "size_t *",
        "*const i8" => "const int8_t *",
        "Answer" => "sitgurp_answer",
        "Shallow" => "sitgurp_shallow",
        "Which" => "sitgurp_which",
        "Verdict" => "sitgurp_verdict",
        "ArrivalTimes" => "sitgurp_arrival_times",
        "Turn" => "sitgurp_turn",
        "Line" => "sitgurp_line",
        "Mark" => "sitgurp_mark",
        "Kept" => "sitgurp_kept",
        other => panic!("type {other}"),
    };
    known.to_string()
}

/// `pub fn name(a: T, ...) -> R;`
fn in_rust(text: &str) -> Vec<Declared> {
    let declarations = text.split("pub fn ").skip(1).map(|part| {
        let (name, rest) = part.split_once('(').expect("parameters");
        let (parameters, rest) = rest.split_once(')').expect("an end");
        let parameters = parameters.split(',').filter_map(|one| one.split_once(':'));
        let parameters = parameters.map(|(name, of)| (name.trim().to_string(), c_type(of.trim())));
        let result = rest.trim_start_matches(" -> ").split(';').next();
        (
            name.to_string(),
            parameters.collect(),
            c_type(result.expect("a result")),
        )
    });
    declarations.collect()
}

/// Without comments.
fn bare(text: &str) -> String {
    text.split("/*")
        .map(|part| part.split("*/").last().unwrap_or(""))
        .collect()
}

/// The functions that the header has whole, `static inline R name(T a, ...) { return f(..); }`, and the header without them.
fn inline_functions(text: &str) -> (Vec<String>, String) {
    let text = bare(text);
    let mut parts = text.split("static inline ");
    let mut rest = parts.next().expect("a first part").to_string();
    let mut functions = Vec::new();
    for part in parts {
        let (function, after) = part.split_once("\n}\n").expect("its end");
        functions.push(function.to_string());
        rest.push_str(after);
    }
    (functions, rest)
}

/// `R name(T a, ...);`, where a `*` stands at the name.
fn in_c(text: &str) -> Vec<Declared> {
    let declarations = text.split(';').filter_map(|part| {
        let (before, parameters) = part.trim().strip_suffix(')')?.split_once('(')?;
        let (result, name) = before.lines().last()?.split_once(' ')?;
        let parameters = parameters.split(',').filter_map(|one| {
            let one = one.trim();
            let start = one.rfind([' ', '*'])? + 1;
            Some((
                one[start..].to_string(),
                one[..start].trim_end().to_string(),
            ))
        });
        Some((name.to_string(), parameters.collect(), result.to_string()))
    });
    declarations.collect()
}

/// The names and C types of `pub extern "C" fn name(a: T, ...) -> R` in the proved crate, where a slice is a pointer and a length.
fn in_rattle(text: &str) -> Vec<(String, Vec<String>, String)> {
    let declarations = text.split("pub extern \"C\" fn ").skip(1).map(|part| {
        let (name, rest) = part.split_once('(').expect("parameters");
        // two slices with one lifetime are lent as any others
        let name = name.trim_end_matches("<'a>");
        let (parameters, rest) = rest.split_once(')').expect("an end");
        let parameters = parameters.split(',').filter_map(|one| one.split_once(':'));
        let types = parameters.flat_map(|(_, of)| match of.trim() {
            "usize" => vec!["size_t"],
            "u64" => vec!["uint64_t"],
            "u8" => vec!["uint8_t"],
            "&[u8]" | "&'a [u8]" => vec!["const uint8_t *", "size_t"],
            "&mut [u8]" => vec!["uint8_t *", "size_t"],
            "&mut usize" => vec!["size_t *"],
            array if array.starts_with("&[u8; ") => vec!["const uint8_t *"],
            array if array.starts_with("&mut [u8; ") => vec!["uint8_t *"],
            "&[i8]" => vec!["const int8_t *", "size_t"],
            other => panic!("type {other}"),
        });
        let result = rest.split_whitespace().nth(1).expect("a result");
        let result = result.strip_prefix("Sitgurp").unwrap_or(result);
        (
            name.to_string(),
            types.map(String::from).collect(),
            c_type(result),
        )
    });
    declarations.collect()
}

#[test]
fn the_header_declares_what_rust_and_the_proved_crate_declare() {
    let mut rust = in_rust(&read("rust/sitgurp/src/ffi.rs"));
    let (_, declared) = inline_functions(&read("include/sitgurp.h"));
    let mut c = in_c(&declared);
    let mut rattle = in_rattle(&read_all("crates/capi/src"));
    rust.sort();
    c.sort();
    rattle.sort();
    assert_eq!(c, rust);
    let c_types = c.into_iter().map(|(name, parameters, result)| {
        let types = parameters.into_iter().map(|(_, of)| of).collect();
        (name, types, result)
    });
    assert_eq!(rattle, c_types.collect::<Vec<_>>());
    assert_eq!(rattle.len(), 23);
}

/// A job is a struct for its caller, and its parts are lent to the library: each of these calls hands the struct's own fields on, in the order of the
/// parameters that bear their names.
#[test]
fn a_call_on_a_job_hands_its_parts_on() {
    let (functions, declared) = inline_functions(&read("include/sitgurp.h"));
    let declared = in_c(&declared);
    for function in &functions {
        let (head, body) = function.split_once('{').expect("a body");
        let head = in_c(&format!("{};", head.trim())).remove(0);
        let call = body.trim().strip_prefix("return ").expect("one call");
        let (to, handed) = call.split_once('(').expect("arguments");
        assert_eq!(to, format!("{}_parts", head.0));
        let handed = handed.strip_suffix(");").expect("its end").split(',');
        let (_, parameters, result) = declared.iter().find(|one| one.0 == to).expect("declared");
        assert_eq!(*result, head.2);
        let due = parameters.iter().map(|(name, of)| match &name[..] {
            own if head.1.iter().any(|(mine, _)| mine == own) => own.to_string(),
            // finishing has a cells buffer besides
            "own" => "job->cells".to_string(),
            "passed" if of.ends_with('*') => "&job->passed".to_string(),
            part => format!("job->{part}"),
        });
        let handed: Vec<&str> = handed.map(str::trim).collect();
        assert_eq!(handed, due.collect::<Vec<_>>());
    }
    assert_eq!(functions.len(), 4);
}

#[test]
fn the_header_has_the_sizes_that_always_suffice() {
    let header = read("include/sitgurp.h");
    for (name, size) in [
        ("CELLS", sitgurp::MOST_CELLS),
        ("MARKS", sitgurp::MOST_MARKS),
        ("NET_SHEET", sitgurp::MOST_NET_SHEET),
        ("TABLE_SHEET", sitgurp::MOST_TABLE_SHEET),
        ("PICTURE", sitgurp::MOST_PICTURE),
    ] {
        let line = format!("#define SITGURP_MOST_{name} {size}");
        assert!(header.lines().any(|one| one == line), "{line}");
    }
}
