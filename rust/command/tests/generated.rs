//! `sitgurp generate PREFIX`: manual pages and completions, made from the list of commands.

use crate::common::Folder;
use std::process::Command;

/// The commands by `--help`.
fn commands(folder: &Folder) -> Vec<String> {
    let help = folder.run("--help").out;
    let lines = help
        .lines()
        .filter(|line| line.starts_with("  ") && !line.starts_with("   "));
    let names = lines.map(|line| line.split_whitespace().next().expect("a name").to_string());
    names.collect()
}

/// A folder in which the files are, below `prefix`.
fn generated(name: &str) -> Folder {
    let folder = Folder::new(name);
    let ended = folder.run("generate prefix");
    assert_eq!((ended.status, ended.err.as_str()), (0, ""));
    assert_eq!(ended.out.lines().count(), 6);
    for path in ended.out.lines() {
        assert!(!folder.get(path).is_empty(), "{path}");
    }
    folder
}

/// Runs a program on a file, unless it is not on this machine.
fn has_no_fault(folder: &Folder, program: &str, words: &[&str]) {
    let Ok(ended) = Command::new(program)
        .args(words)
        .current_dir(&folder.0)
        .output()
    else {
        return;
    };
    let said = String::from_utf8_lossy(&ended.stderr).into_owned();
    assert!(
        ended.status.success() && said.is_empty(),
        "{program} {words:?}: {said}"
    );
}

#[test]
fn manual_pages() {
    let folder = generated("manual");
    let page =
        |section: u8| folder.get(&format!("prefix/share/man/man{section}/sitgurp.{section}"));
    let commands = commands(&folder);
    assert!(commands.len() >= 18);
    for name in &commands {
        assert!(page(1).contains(&format!("\n.SS {name}")), "{name}");
        // every option of its help is there
        let help = folder.run(&format!("{name} --help")).out;
        for line in help.lines().filter(|line| line.starts_with("  -")) {
            let option = line
                .split_whitespace()
                .next()
                .expect("an option")
                .replace('-', "\\-");
            assert!(page(1).contains(&format!("\n\\fB{option}")), "{option}");
        }
    }
    for (section, words) in [
        (1, "EXIT STATUS"),
        (3, "sitgurp_make"),
        (5, "left right table"),
    ] {
        assert!(page(section).starts_with(&format!(".TH SITGURP {section} ")));
        assert!(page(section).contains(words), "{section}");
        let file = format!("prefix/share/man/man{section}/sitgurp.{section}");
        has_no_fault(&folder, "groff", &["-man", "-Tutf8", "-ww", "-z", &file]);
    }
    // the same bytes each time
    let again = generated("manual_again");
    let first = "prefix/share/man/man1/sitgurp.1";
    assert_eq!(folder.get(first), again.get(first));
    // it is for whoever installs, and not in the list
    assert!(!commands.contains(&"generate".to_string()));
}

#[test]
fn completions() {
    let folder = generated("completions");
    let bash = folder.get("prefix/share/bash-completion/completions/sitgurp");
    let zsh = folder.get("prefix/share/zsh/site-functions/_sitgurp");
    let fish = folder.get("prefix/share/fish/vendor_completions.d/sitgurp.fish");
    for name in commands(&folder) {
        assert!(bash.contains(&format!("\n    {name}) options=")), "{name}");
        assert!(zsh.contains(&format!("\n        '{name}:")), "{name}");
        assert!(fish.contains(&format!("-a {name} -d ")), "{name}");
    }
    has_no_fault(
        &folder,
        "bash",
        &["-n", "prefix/share/bash-completion/completions/sitgurp"],
    );
    has_no_fault(
        &folder,
        "zsh",
        &["-n", "prefix/share/zsh/site-functions/_sitgurp"],
    );
    has_no_fault(
        &folder,
        "fish",
        &["-n", "prefix/share/fish/vendor_completions.d/sitgurp.fish"],
    );
}

/// What bash offers after these words.
#[test]
fn bash_completes() {
    let folder = generated("completed");
    folder.put("mine.table", "").put("other.txt", "");
    let offered = |words: &[&str]| {
        let words: Vec<String> = words.iter().map(|word| format!("'{word}'")).collect();
        let script = format!(
            ". prefix/share/bash-completion/completions/sitgurp; COMP_WORDS=(sitgurp {}); COMP_CWORD={}; _sitgurp; echo \"${{COMPREPLY[*]}}\"",
            words.join(" "),
            words.len()
        );
        let ended = Command::new("bash")
            .args(["-c", &script])
            .current_dir(&folder.0)
            .output();
        let text = String::from_utf8(ended.expect("bash runs").stdout).expect("text");
        text.trim_end().to_string()
    };
    assert_eq!(offered(&["ma"]), "make matrix");
    assert_eq!(offered(&["make", "--"]), "--shallow --number --json --help");
    assert_eq!(offered(&["make", "mi"]), "mine.table");
    assert_eq!(offered(&["make", "--number", ""]), "");
    assert_eq!(offered(&["make", "-d", "pre"]), "prefix");
    assert_eq!(offered(&["help", "gly"]), "glyph");
    assert_eq!(offered(&["why", "--a"]), "--all --apply");
}
