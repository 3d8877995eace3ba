//! No work of a user is lost: sheets that are read, files that may not be written, files beside the one that is written.

use crate::common::{answers, is_wrong, Folder, SUM_NET, SUM_SETTLED, SUM_TABLE};
use std::ffi::OsStr;
use std::fs::{self, File};
use std::os::unix::ffi::OsStrExt;
use std::os::unix::fs::{symlink, PermissionsExt};
use std::os::unix::process::ExitStatusExt;
use std::process::{Command, Stdio};
use std::time::{Duration, Instant};

/// The command in a shell of its own, with these words in place of `sitgurp`.
fn shell(folder: &Folder, words: &str) -> (Option<i32>, String, String) {
    let words = words.replace("sitgurp", "\"$0\"");
    let ended = Command::new("bash")
        .args(["-c", &words, env!("CARGO_BIN_EXE_sitgurp")])
        .current_dir(&folder.0)
        .env_remove("SITGURP_AS")
        .output()
        .expect("bash runs");
    let text = |bytes: &[u8]| String::from_utf8_lossy(bytes).into_owned();
    (
        ended.status.code(),
        text(&ended.stdout),
        text(&ended.stderr),
    )
}

/// A net of twelve inputs, whose table has more than a hundred thousand bytes.
fn wide_net() -> String {
    let names: Vec<String> = (0..12).map(|k| format!("i{k}")).collect();
    let mut net = format!(
        "levels inputs\n2 12\n{}\nleft right table\n",
        names.join(" ")
    );
    for (k, name) in names.iter().enumerate().skip(1) {
        let left = if k == 1 {
            "i0".to_string()
        } else {
            (k - 1).to_string()
        };
        net += &format!("{left} {name} 0110\n");
    }
    net
}

/// No command writes over a sheet that it reads, whatever name it has there.
#[test]
fn a_sheet_that_is_read_is_not_written() {
    let folder = Folder::new("work_own");
    let put = || {
        folder.put("own.table", SUM_TABLE).put("own.net", SUM_NET);
    };
    put();
    symlink("own.table", folder.0.join("link.table")).expect("a link");
    symlink("own.net", folder.0.join("link.net")).expect("a link");
    fs::hard_link(folder.0.join("own.table"), folder.0.join("hard.table")).expect("a link");
    for (words, file) in [
        ("why own.table -o own.table", "own.table"),
        ("make own.table -o own.table", "own.table"),
        ("make own.table -o ./own.table", "./own.table"),
        ("make own.table -o link.table", "link.table"),
        ("make link.table -o own.table", "own.table"),
        ("make own.table -o hard.table", "hard.table"),
        ("invert own.table -o own.table", "own.table"),
        ("settle own.net -o own.net", "own.net"),
        ("check own.net own.table -o own.net", "own.net"),
        ("keep own.net own.table -o own.table", "own.table"),
        ("keep own.net own.table -o link.net", "link.net"),
        ("page own.table --json -o own.table", "own.table"),
    ] {
        let name = words.split(' ').next().expect("a command");
        is_wrong(
            folder.run(words),
            &format!("sitgurp {name}: `{file}` is a sheet that it reads, and would be written over: name another file\n"),
        );
        assert_eq!(folder.get("own.table"), SUM_TABLE, "{words}");
        assert_eq!(folder.get("own.net"), SUM_NET, "{words}");
    }
    // standard input is a sheet that it reads too
    let (status, _, err) = shell(&folder, "sitgurp make < own.table -o own.table");
    assert_eq!(
        (status, folder.get("own.table").as_str()),
        (Some(2), SUM_TABLE),
        "{err}"
    );
    let (status, _, err) = shell(&folder, "sitgurp make own.table >> own.table");
    assert_eq!(
        (status, folder.get("own.table").as_str()),
        (Some(2), SUM_TABLE)
    );
    assert_eq!(
        err,
        "own.table: cannot be read: it is standard output too, and would be written over\n"
    );
    // and one that it does not read is none
    let (status, _, err) = shell(
        &folder,
        "sitgurp make own.table -o other.net < own.net; sitgurp make own.table -o own.net",
    );
    assert_eq!((status, err.as_str()), (Some(0), ""));
    assert_eq!(folder.get("own.net"), SUM_SETTLED);
}

/// The file beside the one that is written has a name that cannot be guessed, and what is planted there is not followed.
#[test]
fn a_planted_link_is_not_followed() {
    let folder = Folder::new("work_planted");
    folder.put("sum.net", SUM_NET).put("victim", "as it was\n");
    let own = std::process::id();
    for k in 0..4_000 {
        let name = format!(".new.net.{}", own + k);
        symlink("victim", folder.0.join(name)).expect("a link");
    }
    answers(folder.run("settle sum.net -o new.net"), "");
    assert_eq!(folder.get("victim"), "as it was\n");
    assert_eq!(folder.get("new.net"), SUM_SETTLED);
}

#[test]
fn long_names() {
    let folder = Folder::new("work_long");
    folder.put("sum.net", SUM_NET);
    let name = "n".repeat(255);
    answers(folder.run(&format!("settle sum.net -o {name}")), "");
    answers(folder.run(&format!("settle sum.net -o {name}")), "");
    assert_eq!(folder.get(&name), SUM_SETTLED);
}

#[test]
fn a_read_only_file_stays() {
    let folder = Folder::new("work_read_only");
    folder.put("sum.net", SUM_NET).put("old.net", "as it was\n");
    let rights = fs::Permissions::from_mode(0o444);
    fs::set_permissions(folder.0.join("old.net"), rights).expect("rights");
    symlink("old.net", folder.0.join("link.net")).expect("a link");
    fs::create_dir(folder.0.join("nets")).expect("a folder");
    symlink("../old.net", folder.0.join("nets/sum.net")).expect("a link");
    for file in ["old.net", "link.net"] {
        is_wrong(
            folder.run(&format!("settle sum.net -o {file}")),
            &format!("{file}: cannot be written: it is read-only\n"),
        );
    }
    let many = folder.run("settle -d nets sum.net");
    assert_eq!(many.status, 2);
    assert_eq!(
        many.out,
        "1 sheet: 0 written to nets, 1 not read or not written\n"
    );
    assert_eq!(folder.get("old.net"), "as it was\n");
}

/// A link to a file that is not there yet stays a link, and its target is written.
#[test]
fn links_are_followed() {
    let folder = Folder::new("work_links");
    folder.put("sum.net", SUM_NET);
    fs::create_dir(folder.0.join("more")).expect("a folder");
    symlink("more/second.net", folder.0.join("first.net")).expect("a link");
    symlink("third.net", folder.0.join("more/second.net")).expect("a link");
    answers(folder.run("settle sum.net -o first.net"), "");
    assert_eq!(folder.get("more/third.net"), SUM_SETTLED);
    for link in ["first.net", "more/second.net"] {
        let known = fs::symlink_metadata(folder.0.join(link)).expect("the link");
        assert!(known.is_symlink(), "{link}");
    }
    symlink("round.net", folder.0.join("round.net")).expect("a link");
    assert_eq!(folder.run("settle sum.net -o round.net").status, 2);
}

/// Where a file may not become so long, the old one stays and nothing is left beside it.
#[test]
fn a_limit_leaves_nothing_behind() {
    let folder = Folder::new("work_limit");
    folder
        .put("wide.net", wide_net())
        .put("old.table", "as it was\n");
    for file in ["old.table", "new.table"] {
        let (status, _, err) = shell(
            &folder,
            &format!("ulimit -f 8; sitgurp table wide.net -o {file}"),
        );
        assert_eq!(
            (status, err),
            (
                Some(2),
                format!("{file}: cannot be written: File too large\n")
            )
        );
    }
    assert_eq!(folder.get("old.table"), "as it was\n");
    assert_eq!(folder.names(), ["old.table", "wide.net"]);
}

/// A signal ends a batch while it writes: what is written is whole, and nothing else is left.
#[test]
fn a_signal_leaves_nothing_behind() {
    let folder = Folder::new("work_signal");
    folder.put("wide.net", wide_net());
    let mut sheets = Vec::new();
    for k in 0..400 {
        let name = format!("w{k}.net");
        fs::hard_link(folder.0.join("wide.net"), folder.0.join(&name)).expect("a link");
        sheets.push(name);
    }
    let whole = folder.run("table wide.net").out;
    for (round, (signal, number)) in [("TERM", 15), ("INT", 2), ("HUP", 1), ("TERM", 15)]
        .into_iter()
        .enumerate()
    {
        let out = folder.0.join(format!("out{round}"));
        let mut child = folder
            .command()
            .args(["table", "-d", &format!("out{round}")])
            .args(&sheets)
            .stdout(Stdio::null())
            .spawn()
            .expect("the command starts");
        let start = Instant::now();
        while fs::read_dir(&out).map_or(0, |names| names.count()) < 20 {
            assert!(start.elapsed() < Duration::from_secs(30), "it writes");
        }
        let pid = child.id().to_string();
        let kill = Command::new("kill").args(["-s", signal, &pid]).status();
        assert!(kill.expect("kill runs").success());
        let ended = child.wait().expect("it ends");
        let names = fs::read_dir(&out).expect("the folder");
        let names: Vec<_> = names
            .map(|name| name.expect("a file").file_name())
            .collect();
        assert!(
            names.len() == sheets.len() || ended.signal() == Some(number),
            "{ended:?}"
        );
        for name in names {
            let text = fs::read_to_string(out.join(&name)).expect("a file");
            assert!(
                !name.as_bytes().starts_with(b".") && text == whole,
                "{name:?}"
            );
        }
    }
}

/// Names are used byte for byte, and each result is a file of its own.
#[test]
fn names_that_are_no_text() {
    let folder = Folder::new("work_bytes");
    let names = [&b"a\xff.table"[..], b"a\xfe.table"].map(OsStr::from_bytes);
    for name in names {
        fs::write(folder.0.join(name), SUM_TABLE).expect("a file");
    }
    let ended = folder
        .command()
        .args(["make", "-d", "nets"])
        .args(names)
        .output()
        .expect("it runs");
    assert_eq!(
        String::from_utf8_lossy(&ended.stdout),
        "2 sheets: 2 written to nets\n"
    );
    for name in [&b"a\xff.net"[..], b"a\xfe.net"].map(OsStr::from_bytes) {
        let net = fs::read_to_string(folder.0.join("nets").join(name)).expect("a file");
        assert_eq!(net, SUM_SETTLED);
    }
}

/// Two results that would be one file, through a link in the folder.
#[test]
fn no_two_results_are_one_file() {
    let folder = Folder::new("work_one_file");
    folder.put("a.table", SUM_TABLE).put("b.table", SUM_TABLE);
    fs::create_dir(folder.0.join("nets")).expect("a folder");
    symlink("b.net", folder.0.join("nets/a.net")).expect("a link");
    for _ in 0..2 {
        is_wrong(
            folder.run("make -d nets a.table b.table"),
            "sitgurp make: `a.table` and `b.table` would be written to the same file\n",
        );
        folder.put("nets/b.net", "");
    }
}

/// Many sheets begin at once: what is done before the first is linear in their number.
#[test]
fn a_batch_starts_at_once() {
    let folder = Folder::new("work_start");
    let mut sheets = Vec::new();
    for k in 0..3_000 {
        let name = format!("t{k}.table");
        fs::write(folder.0.join(&name), "x\n").expect("a file");
        sheets.push(name);
    }
    let start = Instant::now();
    let err = File::create(folder.0.join("said")).expect("a file");
    let ended = folder
        .command()
        .args(["make", "-d", "nets"])
        .args(&sheets)
        .stderr(err)
        .output()
        .expect("it runs");
    assert_eq!(
        String::from_utf8_lossy(&ended.stdout),
        "3,000 sheets: 0 written to nets, 3,000 refused\n"
    );
    assert!(
        start.elapsed() < Duration::from_secs(10),
        "{:?}",
        start.elapsed()
    );
}
