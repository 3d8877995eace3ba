//! `./install PREFIX`: what is put in place is used from there, from C, from C++ and from Rust's build script.

use crate::common::{repository, Folder, SUM_NET, SUM_SETTLED, SUM_TABLE};
use std::path::Path;
use std::process::{Command, Output};

fn run(command: &mut Command) -> Output {
    let name = command.get_program().to_owned();
    command
        .output()
        .unwrap_or_else(|error| panic!("{name:?}: {error}"))
}

fn text(bytes: &[u8]) -> String {
    String::from_utf8_lossy(bytes).into_owned()
}

/// Puts everything below a folder whose name has a space, with the command that this test was built with.
fn installed(name: &str) -> Folder {
    let folder = Folder::new(name);
    let ended = run(install().arg(folder.0.join(PREFIX)));
    assert!(ended.status.success(), "{}", text(&ended.stderr));
    for line in text(&ended.stdout).lines() {
        assert!(Path::new(line).is_file(), "{line}");
    }
    folder
}

const PREFIX: &str = "a prefix";

fn install() -> Command {
    let mut command = Command::new(repository().join("install"));
    command.env("SITGURP_BUILT", env!("CARGO_BIN_EXE_sitgurp"));
    command
}

/// A program in C and C++ that says the header's version, whether it is the library's, and whether a bad ink is refused as such.
const PROGRAM: &str = "\
#include <sitgurp.h>
#include <stdio.h>
#include <string.h>

int main(void)
{
    static uint8_t cells[SITGURP_MOST_CELLS], marks[SITGURP_MOST_MARKS], net[SITGURP_MOST_NET_SHEET];
    static const char sheet[] = \"levels inputs\\n2 2\\na b ink\\n0 0 0\\n0 1 1\\n1 0 1\\n1 1 2\\n\";
    static sitgurp_job job;
    sitgurp_answer made = sitgurp_make((const uint8_t *)sheet, strlen(sheet), cells, sizeof cells, marks, sizeof marks, net, sizeof net);
    sitgurp_answer opened = sitgurp_job_open((const uint8_t *)sheet, strlen(sheet), &job);
    int refused = made.number == SITGURP_REFUSED_DIGITS && opened.number == SITGURP_REFUSED_DIGITS;
    printf(\"%s %d %d\\n\", SITGURP_VERSION, sitgurp_version() == SITGURP_VERSION_NUMBER, refused);
    return 0;
}
";

/// The words of a line in which a backslash stands before a space that belongs to its word, as pkg-config prints them.
fn shell_words(line: &str) -> Vec<String> {
    let marked = line.trim().replace("\\ ", "\0");
    let words = marked.split_whitespace();
    words.map(|word| word.replace('\0', " ")).collect()
}

/// The flags from pkg-config, or plain ones if it is not there.
fn flags(prefix: &Path, options: &[&str]) -> Vec<String> {
    let asked = Command::new("pkg-config")
        .args(["--cflags", "--libs", "sitgurp"])
        .args(options)
        .env("PKG_CONFIG_PATH", prefix.join("lib/pkgconfig"))
        .output();
    match asked {
        Ok(answer) => {
            assert!(answer.status.success(), "{}", text(&answer.stderr));
            shell_words(&text(&answer.stdout))
        }
        Err(_) => vec![
            format!("-I{}", prefix.join("include").display()),
            format!("-L{}", prefix.join("lib").display()),
            "-lsitgurp".to_string(),
        ],
    }
}

/// Compiles the program, with a compiler and its first words, and with the flags of the library.
fn compiled(folder: &Folder, compiler: &str, words: &[&str], flags: &[String], to: &str) {
    let built = run(Command::new(compiler)
        .current_dir(&folder.0)
        .args(words)
        .args([
            "-Wall",
            "-Wextra",
            "-Werror",
            "-pedantic",
            "program.c",
            "-o",
            to,
        ])
        .args(flags));
    assert!(built.status.success(), "{words:?} {}", text(&built.stderr));
}

/// Runs the compiled program, with the shared libraries of a folder.
fn says_its_version(folder: &Folder, program: &str, libraries: &Path) {
    let said = run(Command::new(folder.0.join(program)).env("LD_LIBRARY_PATH", libraries));
    let due = format!("{} 1 1\n", env!("CARGO_PKG_VERSION"));
    assert_eq!(text(&said.stdout), due, "{}", text(&said.stderr));
}

#[test]
fn what_is_put_in_place_is_used_from_there() {
    let folder = installed("install");
    let prefix = folder.0.join(PREFIX);
    // the command and the proved programs
    let version = run(Command::new(prefix.join("bin/sitgurp")).arg("--version"));
    assert_eq!(
        text(&version.stdout),
        format!("sitgurp {}\n", env!("CARGO_PKG_VERSION"))
    );
    folder.put("sum.net", SUM_NET);
    let sheet = std::fs::File::open(folder.0.join("sum.net")).expect("a sheet");
    let settled = run(Command::new(prefix.join("bin/sitgurp-settle")).stdin(sheet));
    assert_eq!(text(&settled.stdout), SUM_SETTLED);
    assert!(prefix.join("bin/sitgurp-make").is_file());
    // the page, with a table inside
    folder.put("sum.table", SUM_TABLE);
    let page = run(Command::new(prefix.join("bin/sitgurp"))
        .env_remove("SITGURP_PAGE")
        .arg("page")
        .arg(folder.0.join("sum.table")));
    assert!(page.status.success(), "{}", text(&page.stderr));
    assert!(text(&page.stdout).contains(SUM_TABLE));
    // the pkg-config file has the version too
    let file = folder.get("a prefix/lib/pkgconfig/sitgurp.pc");
    assert!(
        file.contains(&format!("\nVersion: {}\n", env!("CARGO_PKG_VERSION"))),
        "{file}"
    );
}

/// With the shared library, by its soname alone, and with the archive alone.
#[test]
fn both_libraries_are_linked() {
    let folder = installed("install_libraries");
    let prefix = folder.0.join(PREFIX);
    let libraries = prefix.join("lib");
    folder.put("program.c", PROGRAM);
    compiled(&folder, "cc", &["-std=c99"], &flags(&prefix, &[]), "shared");
    let all_static = flags(&prefix, &["--static"]);
    compiled(
        &folder,
        "cc",
        &["-std=c11", "-static"],
        &all_static,
        "static",
    );
    for name in ["libsitgurp.so", "libsitgurp.a"] {
        std::fs::remove_file(libraries.join(name)).expect("it was put in place");
    }
    says_its_version(&folder, "shared", &libraries);
    std::fs::remove_dir_all(&libraries).expect("it was put in place");
    says_its_version(&folder, "static", &libraries);
    let without = run(Command::new(folder.0.join("shared")).env("LD_LIBRARY_PATH", &libraries));
    assert!(text(&without.stderr).contains("libsitgurp.so.0"));
}

#[test]
fn the_header_is_good_in_every_c_and_cpp() {
    let folder = installed("install_languages");
    let prefix = folder.0.join(PREFIX);
    let flags = flags(&prefix, &[]);
    folder.put("program.c", PROGRAM);
    for standard in ["-std=c99", "-std=c11", "-std=c17"] {
        compiled(&folder, "cc", &[standard], &flags, "program");
        says_its_version(&folder, "program", &prefix.join("lib"));
    }
    if Command::new("c++").arg("--version").output().is_err() {
        eprintln!("there is no C++ compiler: the header was not tried in C++");
        return;
    }
    for standard in ["-std=c++11", "-std=c++14", "-std=c++17", "-std=c++20"] {
        compiled(&folder, "c++", &["-x", "c++", standard], &flags, "program");
        says_its_version(&folder, "program", &prefix.join("lib"));
    }
}

/// The names of the calls that the header declares without a body.
fn declared() -> Vec<String> {
    let header = std::fs::read_to_string(repository().join("include/sitgurp.h")).expect("a header");
    let declarations = header.lines().filter_map(|line| {
        let (before, _) = line.split_once('(')?;
        let (of, name) = before.split_once(' ')?;
        let is_type = !of.is_empty()
            && of
                .bytes()
                .all(|byte| byte == b'_' || byte.is_ascii_alphanumeric());
        (is_type && name.starts_with("sitgurp_")).then(|| name.to_string())
    });
    let mut names: Vec<String> = declarations.collect();
    names.sort();
    names
}

#[test]
fn the_shared_library_exports_what_the_header_declares() {
    let folder = installed("install_exports");
    let library = folder.0.join(PREFIX).join("lib/libsitgurp.so.0");
    let listed = run(Command::new("nm")
        .args(["-D", "--defined-only"])
        .arg(library));
    let listed = text(&listed.stdout);
    let mut names: Vec<&str> = listed
        .lines()
        .filter_map(|line| line.split_whitespace().nth(2))
        .collect();
    names.retain(|name| *name != "SITGURP_0");
    names.sort_unstable();
    let mut due = declared();
    assert_eq!(due.len(), 23);
    due.iter_mut().for_each(|name| name.push_str("@@SITGURP_0"));
    assert_eq!(names, due);
}

/// With DESTDIR everything is below that folder, and speaks of the prefix alone.
#[test]
fn a_staged_folder() {
    let folder = Folder::new("install_staged");
    let stage = folder.0.join("stage");
    let ended = run(install().arg("/opt/sitgurp").env("DESTDIR", &stage));
    assert!(ended.status.success(), "{}", text(&ended.stderr));
    for line in text(&ended.stdout).lines() {
        let below = Path::new(line).strip_prefix(&stage).expect("below DESTDIR");
        assert!(below.starts_with("opt/sitgurp") && Path::new(line).is_file());
    }
    let file = folder.get("stage/opt/sitgurp/lib/pkgconfig/sitgurp.pc");
    assert!(file.starts_with("prefix=/opt/sitgurp\n"), "{file}");
    let ended = run(install().arg("sitgurp").env("DESTDIR", &stage));
    assert_eq!(ended.status.code(), Some(2));
    assert_eq!(text(&ended.stderr), "with DESTDIR, PREFIX begins with /\n");
}

#[test]
fn a_wrong_use_is_told() {
    for words in [&[][..], &["a", "b"], &["--help"], &[""], &["--aarch64"]] {
        let ended = run(Command::new(repository().join("install")).args(words));
        assert_eq!(ended.status.code(), Some(2));
        assert_eq!(text(&ended.stderr), "usage: ./install [--aarch64] PREFIX\n");
    }
}

/// The rewriting of the LLVM module for aarch64, on a text. `rust/command/aarch64-test` tests the library itself.
#[test]
fn a_module_for_aarch64() {
    let folder = Folder::new("install_aarch64");
    let rewritten = |module: &str| {
        folder.put("module.ll", module);
        let script = repository().join("rust/command/aarch64.awk");
        run(Command::new("awk")
            .current_dir(&folder.0)
            .arg("-f")
            .args([&script, Path::new("module.ll")]))
    };
    let ended = rewritten(
        "target triple = \"x86_64-unknown-linux-gnu\"
define noundef ptr @sitgurp_check(ptr noundef %a0, ptr noundef %a1) #0 {
  ret ptr %a0
}
define { i64, i64 } @sitgurp_make(ptr noundef %a0) #0 {
  ret { i64, i64 } %r0
}
define internal ptr @\"capi::other\"(ptr noundef %a0) #0 {
  ret ptr %a0
}
attributes #0 = { nounwind \"target-cpu\"=\"x86-64\" }
",
    );
    assert!(ended.status.success(), "{}", text(&ended.stderr));
    assert_eq!(
        text(&ended.stdout),
        "define void @sitgurp_check(ptr noundef sret(i8) %a0, ptr noundef %a1) #0 {
  ret void
}
define { i64, i64 } @sitgurp_make(ptr noundef %a0) #0 {
  ret { i64, i64 } %r0
}
define internal ptr @\"capi::other\"(ptr noundef %a0) #0 {
  ret ptr %a0
}
attributes #0 = { nounwind }
"
    );
    // what it does not know is not passed on
    for module in [
        "",
        "define double @sitgurp_time(ptr noundef %a0) #0 {\n  ret double 0.0\n}\n",
        "define noundef ptr @sitgurp_line(i64 %a0) #0 {\n  ret ptr null\n}\n",
        "define noundef ptr @sitgurp_line(ptr noundef %a0) #0 {\n  ret ptr %r1\n}\n",
    ] {
        assert_eq!(rewritten(module).status.code(), Some(1), "{module}");
    }
}

/// The build script of the Rust crate, built and run by itself: it takes the folder, and says in one line what is missing.
#[test]
fn the_rust_crate_takes_a_folder() {
    let folder = installed("install_rust");
    let script = repository().join("rust/sitgurp/build.rs");
    let built = run(Command::new("rustc")
        .current_dir(&folder.0)
        .env("CARGO_MANIFEST_DIR", &folder.0)
        .args(["--edition", "2021", "-o", "build"])
        .arg(script));
    assert!(built.status.success(), "{}", text(&built.stderr));
    let build = |of: Option<&Path>| {
        let mut command = Command::new(folder.0.join("build"));
        command.env_remove("SITGURP_LIB_DIR");
        if let Some(of) = of {
            command.env("SITGURP_LIB_DIR", of);
        }
        run(&mut command)
    };
    let lib = folder.0.join(PREFIX).join("lib");
    let good = build(Some(&lib));
    assert!(good.status.success());
    assert!(text(&good.stdout).contains(&format!(
        "cargo:rustc-link-search=native={}\ncargo:rustc-link-lib=static=sitgurp\n",
        lib.display()
    )));
    // what is watched is there: a file that is not would be built anew every time
    for line in text(&good.stdout).lines() {
        if let Some(file) = line.strip_prefix("cargo:rerun-if-changed=") {
            assert!(Path::new(file).is_file(), "{file}");
        }
    }
    let missing = build(Some(Path::new("/none")));
    assert_eq!(missing.status.code(), Some(1));
    assert_eq!(
        text(&missing.stderr),
        "SITGURP_LIB_DIR is /none, which has no libsitgurp.a\n"
    );
    let missing = build(None);
    assert_eq!(missing.status.code(), Some(1));
    assert_eq!(
        text(&missing.stderr),
        "the proved library is missing: run `rt lib` in crates/capi, or set SITGURP_LIB_DIR to the folder of libsitgurp.a\n"
    );
}
