//! `./package`: the same bytes every time, and everything in place. `rust/command/package-test` installs and removes it besides.

use crate::common::{repository, Folder, SUM_NET, SUM_SETTLED, SUM_TABLE};
use std::path::{Path, PathBuf};
use std::process::{Command, Output};

fn run(command: &mut Command) -> Output {
    let name = command.get_program().to_owned();
    let ended = command.output();
    let ended = ended.unwrap_or_else(|error| panic!("{name:?}: {error}"));
    let said = String::from_utf8_lossy(&ended.stderr);
    assert!(ended.status.success(), "{name:?}: {said}");
    ended
}

fn text(bytes: &[u8]) -> String {
    String::from_utf8_lossy(bytes).into_owned()
}

/// Builds both files with the command that this test was built with, by a shell that first runs `before`.
fn packaged(folder: &Path, before: &str) -> [PathBuf; 2] {
    run(Command::new("sh")
        .arg("-c")
        .arg(format!("{before}; exec \"$0\" \"$1\""))
        .arg(repository().join("package"))
        .arg(folder)
        .env("SITGURP_BUILT", env!("CARGO_BIN_EXE_sitgurp"))
        .env("SOURCE_DATE_EPOCH", "1700000000"));
    let version = env!("CARGO_PKG_VERSION");
    [
        folder.join(format!("sitgurp_{version}_amd64.deb")),
        folder.join(format!("sitgurp-{version}-linux-amd64.tar.gz")),
    ]
}

/// Unpacks an archive into a folder.
fn unpacked(archive: &Path, to: &Path) {
    std::fs::create_dir_all(to).expect("a folder");
    run(Command::new("tar")
        .arg("-xf")
        .arg(archive)
        .arg("-C")
        .arg(to));
}

/// The files below a folder, by their names from there, sorted.
fn files(folder: &Path) -> Vec<String> {
    let listed = run(Command::new("find")
        .current_dir(folder)
        .args([".", "-type", "f"]));
    let mut names: Vec<String> = text(&listed.stdout)
        .lines()
        .map(|name| name.trim_start_matches("./").to_string())
        .collect();
    names.sort();
    names
}

/// What was put in place works with no other program at hand: the command, a proved program and the page.
fn works(usr: &Path, folder: &Folder) {
    folder.put("sum.net", SUM_NET);
    folder.put("sum.table", SUM_TABLE);
    let settled = run(Command::new(usr.join("bin/sitgurp"))
        .env_clear()
        .arg("settle")
        .arg(folder.0.join("sum.net")));
    assert_eq!(text(&settled.stdout), SUM_SETTLED);
    let sheet = std::fs::File::open(folder.0.join("sum.net")).expect("a sheet");
    let settled = run(Command::new(usr.join("bin/sitgurp-settle"))
        .env_clear()
        .stdin(sheet));
    assert_eq!(text(&settled.stdout), SUM_SETTLED);
    let page = run(Command::new(usr.join("bin/sitgurp"))
        .env_clear()
        .arg("page")
        .arg(folder.0.join("sum.table")));
    assert!(text(&page.stdout).contains(SUM_TABLE));
}

#[test]
fn the_same_commit_gives_the_same_bytes() {
    let folder = Folder::new("package_bytes");
    let one = packaged(&folder.0.join("one"), "umask 077");
    let before = "umask 002; TZ=Asia/Tokyo LC_ALL=C.UTF-8; export TZ LC_ALL; cd /";
    let other = packaged(&folder.0.join("other"), before);
    for (one, other) in one.iter().zip(&other) {
        let [one, other] = [one, other].map(|file| std::fs::read(file).expect("a file"));
        assert!(one == other, "the two differ");
    }
}

#[test]
fn the_debian_package_has_everything() {
    let folder = Folder::new("package_debian");
    let [package, _] = packaged(&folder.0.join("built"), "true");
    let parts = folder.0.join("parts");
    std::fs::create_dir(&parts).expect("a folder");
    run(Command::new("ar").current_dir(&parts).arg("x").arg(package));
    assert_eq!(folder.get("parts/debian-binary"), "2.0\n");
    unpacked(&parts.join("control.tar.gz"), &folder.0.join("control"));
    unpacked(&parts.join("data.tar.gz"), &folder.0.join("root"));
    let root = folder.0.join("root");
    works(&root.join("usr"), &folder);
    // every file has its sum, and every sum is right
    run(Command::new("md5sum").current_dir(&root).args([
        "--check",
        "--quiet",
        "../control/md5sums",
    ]));
    let sums = folder.get("control/md5sums");
    let summed: Vec<&str> = sums.lines().map(|line| &line[34..]).collect();
    let there = files(&root);
    assert_eq!(summed, there);
    let version = env!("CARGO_PKG_VERSION");
    for name in [
        "bin/sitgurp-make",
        "bin/sitgurp-tidy",
        "include/sitgurp.h",
        "lib/libsitgurp.a",
        &format!("lib/libsitgurp.so.{version}"),
        "lib/pkgconfig/sitgurp.pc",
        "share/man/man1/sitgurp.1.gz",
        "share/man/man3/sitgurp.3.gz",
        "share/man/man5/sitgurp.5.gz",
        "share/bash-completion/completions/sitgurp",
        "share/zsh/vendor-completions/_sitgurp",
        "share/fish/vendor_completions.d/sitgurp.fish",
        "share/sitgurp/sitgurp.html",
    ] {
        assert!(there.contains(&format!("usr/{name}")), "{name}");
    }
    let control = folder.get("control/control");
    let due = format!("Package: sitgurp\nVersion: {version}\nArchitecture: amd64\n");
    assert!(control.starts_with(&due), "{control}");
    assert!(control.contains("\nDepends: libc6 (>= 2."), "{control}");
}

#[test]
fn the_archive_works_anywhere() {
    let folder = Folder::new("package_archive");
    let [_, archive] = packaged(&folder.0.join("built"), "true");
    unpacked(&archive, &folder.0.join("some where"));
    let version = env!("CARGO_PKG_VERSION");
    let below = format!("some where/sitgurp-{version}");
    works(&folder.0.join(&below), &folder);
    // pkg-config finds the folder by its file, also where its name has a space
    let asked = Command::new("pkg-config")
        .args(["--cflags", "sitgurp"])
        .env(
            "PKG_CONFIG_PATH",
            folder.0.join(&below).join("lib/pkgconfig"),
        )
        .output();
    if let Ok(asked) = asked {
        let said = text(&asked.stdout).trim().replace("\\ ", " ");
        let include = said.strip_prefix("-I").map(Path::new);
        assert!(
            include.is_some_and(|of| of.join("sitgurp.h").is_file()),
            "{said}"
        );
    }
}

#[test]
fn a_wrong_use_is_told() {
    for words in [&["a", "b"][..], &["--help"], &[""]] {
        let ended = Command::new(repository().join("package"))
            .args(words)
            .output();
        let ended = ended.expect("./package");
        assert_eq!(ended.status.code(), Some(2));
        assert_eq!(text(&ended.stderr), "usage: ./package [FOLDER]\n");
    }
}
