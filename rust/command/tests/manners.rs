//! How every command behaves: where it reads from and writes to, its status, help and version.

use crate::common::{answers, is_wrong, Folder, SUM_NET, SUM_SETTLED, SUM_TABLE};
use std::fs::{self, File};
use std::os::unix::fs::{symlink, PermissionsExt};
use std::process::Stdio;

const COMMANDS: [&str; 25] = [
    "make",
    "why",
    "fill",
    "widen",
    "larger",
    "check",
    "tidy",
    "invert",
    "table",
    "eval",
    "settle",
    "same",
    "keep",
    "gates",
    "count",
    "family",
    "shallower",
    "arrivals",
    "draw",
    "matrix",
    "page",
    "glyph",
    "export",
    "import",
    "stream",
];

#[test]
fn a_file_a_dash_or_nothing() {
    let folder = Folder::new("input");
    folder.put("sum.net", SUM_NET).put("sum.table", SUM_TABLE);
    answers(folder.run("settle sum.net"), SUM_SETTLED);
    answers(folder.run_on("settle -", SUM_NET.as_bytes()), SUM_SETTLED);
    answers(folder.run_on("settle", SUM_NET.as_bytes()), SUM_SETTLED);
    let yes = "yes: the net has this table, all 8 rows\n";
    answers(folder.run_on("check - sum.table", SUM_NET.as_bytes()), yes);
    answers(folder.run_on("check sum.net -", SUM_TABLE.as_bytes()), yes);
    answers(folder.run_on("check sum.net", SUM_TABLE.as_bytes()), yes);
    is_wrong(
        folder.run("check"),
        "sitgurp check: it takes 2 sheets, and 0 are named\nusage: sitgurp check NET [TABLE]\n",
    );
    is_wrong(
        folder.run("check - -"),
        "sitgurp check: one sheet at most can be standard input\n",
    );
    // standard input is called so in messages, and a name with a space is quoted in a command
    let refused = folder.run_on("make", b"");
    assert!(refused
        .err
        .starts_with("standard input:1:1: there is nothing to read"));
    folder.put("-odd.net", SUM_NET);
    answers(folder.run("settle -- -odd.net"), SUM_SETTLED);
}

#[test]
fn files_that_cannot_be_read() {
    let folder = Folder::new("unreadable");
    is_wrong(
        folder.run("make none.table"),
        "none.table: cannot be read: No such file or directory\n",
    );
    is_wrong(folder.run("make ."), ".: cannot be read: Is a directory\n");
    is_wrong(
        folder.run("make /dev/zero"),
        "/dev/zero: cannot be a sheet: it is longer than 16777216 bytes\n",
    );
}

#[test]
fn a_file_is_written_whole_or_not_at_all() {
    let folder = Folder::new("output");
    folder.put("sum.net", SUM_NET).put("old.net", "as it was\n");
    answers(folder.run("settle sum.net -o new.net"), "");
    assert_eq!(folder.get("new.net"), SUM_SETTLED);
    // a refusal leaves what was there
    folder.put("bad.net", "x\n");
    assert_eq!(folder.run("settle bad.net -o old.net").status, 1);
    assert_eq!(folder.get("old.net"), "as it was\n");
    answers(folder.run("settle sum.net -o old.net"), "");
    assert_eq!(folder.get("old.net"), SUM_SETTLED);
    // through a link, and with the file's rights kept
    fs::set_permissions(folder.0.join("old.net"), fs::Permissions::from_mode(0o640))
        .expect("rights");
    symlink("old.net", folder.0.join("link.net")).expect("a link");
    answers(folder.run_on("settle -o link.net", SUM_NET.as_bytes()), "");
    let rights = fs::metadata(folder.0.join("old.net"))
        .expect("the file")
        .permissions();
    assert_eq!(rights.mode() & 0o777, 0o640);
    assert!(fs::symlink_metadata(folder.0.join("link.net"))
        .expect("the link")
        .is_symlink());
    // nothing else is left behind
    assert_eq!(
        folder.names(),
        ["bad.net", "link.net", "new.net", "old.net", "sum.net"]
    );
    is_wrong(
        folder.run("settle sum.net -o none/new.net"),
        "none/new.net: cannot be written: No such file or directory\n",
    );
    is_wrong(
        folder.run("settle sum.net -o /dev/full"),
        "/dev/full: cannot be written: No space left on device\n",
    );
}

#[test]
fn a_full_disk_and_a_closed_output() {
    let folder = Folder::new("closed");
    folder.put("sum.net", SUM_NET);
    for words in [
        "settle sum.net",
        "settle sum.net --json",
        "--help",
        "make --help",
        "--version",
    ] {
        let full = File::options()
            .write(true)
            .open("/dev/full")
            .expect("a device");
        let mut command = folder.command();
        let ended = command
            .args(words.split(' '))
            .stdout(full)
            .stderr(Stdio::piped())
            .output()
            .expect("the command runs");
        assert_eq!(ended.status.code(), Some(2), "{words}");
        assert_eq!(
            String::from_utf8_lossy(&ended.stderr),
            "standard output: cannot be written: No space left on device\n"
        );
        // closed before the start, and closed by a reader that has gone
        for (shell, said) in [
            (
                "exec \"$0\" \"$@\" >&-",
                "standard output: cannot be written: it is closed\n",
            ),
            // a reader that has gone away is no error
            ("( sleep 0.2; \"$0\" \"$@\"; echo $? >&2 ) | true", ""),
        ] {
            let binary = env!("CARGO_BIN_EXE_sitgurp");
            let ended = std::process::Command::new("bash")
                .args(["-c", shell, binary])
                .args(words.split(' '))
                .current_dir(&folder.0)
                .env_remove("SITGURP_AS")
                .output()
                .expect("bash runs");
            let err = String::from_utf8_lossy(&ended.stderr);
            match said {
                "" => assert_eq!(err, "0\n"),
                said => {
                    assert_eq!(ended.status.code(), Some(2), "{words}");
                    assert_eq!(err, said);
                }
            }
        }
    }
}

/// Where nothing can be said either, the status still tells.
#[test]
fn a_standard_error_that_cannot_be_written() {
    let folder = Folder::new("no_error");
    folder.put("bad.net", "x\n");
    for (words, status) in [("settle bad.net", 1), ("settle none.net", 2), ("nosuch", 2)] {
        let full = File::options()
            .write(true)
            .open("/dev/full")
            .expect("a device");
        let mut command = folder.command();
        let ended = command.args(words.split(' ')).stderr(full).output();
        assert_eq!(
            ended.expect("it runs").status.code(),
            Some(status),
            "{words}"
        );
    }
    folder.put("sum.net", SUM_NET);
    answers(folder.run("settle sum.net -o -"), SUM_SETTLED);
}

#[test]
fn help_and_version() {
    let folder = Folder::new("help");
    let version = format!("sitgurp {}\n", env!("CARGO_PKG_VERSION"));
    answers(folder.run("--version"), &version);
    let general = folder.run("--help");
    assert_eq!((general.status, general.err.as_str()), (0, ""));
    assert_eq!(folder.run("help"), general);
    for name in COMMANDS {
        let listed = format!("\n  {name} ");
        assert!(general.out.contains(&listed), "{name} is listed");
        let help = folder.run(&format!("{name} --help"));
        assert_eq!((help.status, help.err.as_str()), (0, ""));
        assert!(help.out.starts_with(&format!("usage: sitgurp {name} ")));
        assert_eq!(folder.run(&format!("help {name}")), help);
        // a stream writes as it goes, and JSON alone
        let common = help.out.contains("\n  -o FILE") && help.out.contains("\n  --json");
        assert_eq!(common, name != "stream");
    }
    // a command has two lines
    assert_eq!(
        general
            .out
            .matches(
                "
  "
            )
            .count(),
        2 * COMMANDS.len()
    );
    // called by another name
    let mut command = folder.command();
    let called = command
        .env("SITGURP_AS", "./run")
        .arg("nosuch")
        .output()
        .expect("it runs");
    assert_eq!(
        String::from_utf8_lossy(&called.stderr),
        "there is no command `nosuch`; `./run --help` lists the commands\n"
    );
}

#[test]
fn wrong_commands() {
    let folder = Folder::new("wrong");
    folder.put("sum.table", SUM_TABLE);
    assert_eq!(folder.run("").status, 2);
    is_wrong(
        folder.run("mke sum.table"),
        "there is no command `mke`; `sitgurp --help` lists the commands\n",
    );
    is_wrong(
        folder.run("sum.table"),
        "there is no command `sum.table`; `sitgurp make sum.table` makes its tree, and `sitgurp --help` lists the commands\n",
    );
    for (words, said) in [
        (
            "make --shalow sum.table",
            "there is no option `--shalow` here",
        ),
        ("make sum.table --number", "--number needs a value: K"),
        ("make sum.table --shallow=1", "--shallow takes no value"),
        (
            "make sum.table --shallow --shallow",
            "--shallow is given twice",
        ),
        ("make sum.table -o", "-o needs a FILE"),
        ("make sum.table -o a -o b", "-o is given twice"),
        ("make sum.table -o a -d b", "-o and -d do not go together"),
        ("make -d out", "-d needs the sheets to be named"),
        (
            "make sum.table other.table",
            "`other.table` is one operand too many; for several sheets add -d FOLDER",
        ),
    ] {
        is_wrong(
            folder.run(words),
            &format!("sitgurp make: {said}\nusage: sitgurp make [TABLE] [--shallow | --number K]\n`sitgurp make --help` says more.\n"),
        );
    }
    is_wrong(
        folder.run("count -d out sum.table"),
        "sitgurp count: there is no option `-d` here\n",
    );
}
