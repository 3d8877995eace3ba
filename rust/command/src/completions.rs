//! Completions for bash, zsh and fish, made from the list of commands that `--help` uses.

use crate::commands::{self, Command};
use crate::help::{options, Shown};

/// What a value is completed by.
enum Value {
    File,
    Folder,
    Other,
}

fn value(option: &Shown) -> Option<Value> {
    Some(match option.value? {
        "FILE" => Value::File,
        "FOLDER" => Value::Folder,
        _ => Value::Other,
    })
}

fn names() -> String {
    let names: Vec<&str> = commands::ALL.iter().map(|command| command.name).collect();
    names.join(" ")
}

/// Returns the options of all commands that take a value of some kind, each once.
fn with_value(kind: fn(&Value) -> bool) -> Vec<&'static str> {
    let all = commands::ALL.iter().flat_map(|command| options(command));
    let all = all.filter(|option| value(option).is_some_and(|value| kind(&value)));
    let mut names: Vec<&str> = all.map(|option| option.name).collect();
    names.sort_unstable();
    names.dedup();
    names
}

pub fn bash() -> String {
    let cases: String = commands::ALL
        .iter()
        .map(|command| {
            let names: Vec<&str> = options(command).iter().map(|option| option.name).collect();
            format!(
                "    {}) options='{} --help' ;;\n",
                command.name,
                names.join(" ")
            )
        })
        .collect();
    let others = with_value(|value| matches!(value, Value::Other)).join("|");
    BASH.replace("@NAMES@", &names())
        .replace("@OTHERS@", &others)
        .replace("@CASES@", &cases)
}

const BASH: &str = r#"# Completion of sitgurp for bash.
_sitgurp() {
    local current=${COMP_WORDS[COMP_CWORD]} previous=${COMP_WORDS[COMP_CWORD-1]} options=--help
    COMPREPLY=()
    if [ "$COMP_CWORD" -eq 1 ]; then
        mapfile -t COMPREPLY < <(compgen -W '@NAMES@ help --help --version' -- "$current")
        return
    fi
    case $previous in
    -o) compopt -o filenames 2>/dev/null; mapfile -t COMPREPLY < <(compgen -f -- "$current"); return ;;
    -d) compopt -o filenames 2>/dev/null; mapfile -t COMPREPLY < <(compgen -d -- "$current"); return ;;
    @OTHERS@) return ;;
    esac
    case ${COMP_WORDS[1]} in
    help) mapfile -t COMPREPLY < <(compgen -W '@NAMES@' -- "$current"); return ;;
@CASES@    esac
    case $current in
    -*) mapfile -t COMPREPLY < <(compgen -W "$options" -- "$current") ;;
    *) compopt -o filenames 2>/dev/null; mapfile -t COMPREPLY < <(compgen -f -- "$current") ;;
    esac
}
complete -F _sitgurp sitgurp
"#;

pub fn zsh() -> String {
    let quoted = |text: &str| text.replace('\'', "'\\''");
    let list: String = commands::ALL
        .iter()
        .map(|command| format!("        '{}:{}'\n", command.name, quoted(command.summary)))
        .collect();
    let cases: String = commands::ALL
        .iter()
        .map(|command| {
            format!(
                "    {}) _arguments {}'*:sheet:_files' ;;\n",
                command.name,
                zsh_options(command)
            )
        })
        .collect();
    ZSH.replace("@LIST@", &list).replace("@CASES@", &cases)
}

fn zsh_options(command: &Command) -> String {
    let plain = |text: &str| {
        text.replace('\'', "'\\''")
            .replace('[', "\\[")
            .replace(']', "\\]")
            .replace(':', "\\:")
    };
    let words = options(command).into_iter().map(|option| {
        let action = match value(&option) {
            None => String::new(),
            Some(Value::File) => ":file:_files".to_string(),
            Some(Value::Folder) => ":folder:_files -/".to_string(),
            Some(Value::Other) => format!(":{}: ", option.value.unwrap_or("value")),
        };
        format!("'{}[{}]{action}' ", option.name, plain(&option.says))
    });
    words.collect()
}

const ZSH: &str = r#"#compdef sitgurp
# Completion of sitgurp for zsh.
_sitgurp() {
    local -a commands
    commands=(
@LIST@        'help:says more about a command'
    )
    if (( CURRENT == 2 )); then
        _describe command commands
        return
    fi
    local name=$words[2]
    shift words
    (( CURRENT-- ))
    case $name in
    help) _describe command commands ;;
@CASES@    esac
}
_sitgurp "$@"
"#;

pub fn fish() -> String {
    let quoted = |text: &str| text.replace('\\', "\\\\").replace('\'', "\\'");
    let mut text = String::from("# Completion of sitgurp for fish.\n");
    text += "complete -c sitgurp -n __fish_use_subcommand -f\n";
    for command in commands::ALL {
        let (name, summary) = (command.name, quoted(command.summary));
        text += &format!("complete -c sitgurp -n __fish_use_subcommand -a {name} -d '{summary}'\n");
        for option in options(command) {
            let (kind, word) = match option.name.strip_prefix("--") {
                Some(word) => ("-l", word),
                None => ("-s", &option.name[1..]),
            };
            let argument = match value(&option) {
                None => "",
                Some(Value::File) => " -r -F",
                Some(Value::Folder) => " -x -a '(__fish_complete_directories)'",
                Some(Value::Other) => " -x",
            };
            let says = quoted(&option.says);
            text += &format!("complete -c sitgurp -n '__fish_seen_subcommand_from {name}' {kind} {word}{argument} -d '{says}'\n");
        }
    }
    text + &format!(
        "complete -c sitgurp -n '__fish_seen_subcommand_from help' -f -a '{}'\n",
        names()
    )
}
