//! Lists, numbers and names of files in words.

use std::ffi::OsStr;

/// `a`, `a and b`, `a, b and c`.
pub fn list<T: AsRef<str>>(items: &[T]) -> String {
    match items {
        [] => String::new(),
        [one] => one.as_ref().to_string(),
        [front @ .., last] => {
            let front: Vec<&str> = front.iter().map(AsRef::as_ref).collect();
            format!("{} and {}", front.join(", "), last.as_ref())
        }
    }
}

/// `1 row`, `2 rows`.
pub fn count(number: usize, one: &str) -> String {
    match number {
        1 => format!("1 {one}"),
        number => format!("{} {one}s", thousands(number)),
    }
}

/// `4,096`.
pub fn thousands(number: usize) -> String {
    let digits = number.to_string();
    let mut text = String::new();
    for (k, digit) in digits.chars().enumerate() {
        if k > 0 && (digits.len() - k).is_multiple_of(3) {
            text.push(',');
        }
        text.push(digit);
    }
    text
}

/// `0 1 2`.
pub fn levels(levels: &[u8]) -> String {
    let levels: Vec<String> = levels.iter().map(u8::to_string).collect();
    levels.join(" ")
}

/// `weight=0 near=2`, as `eval` takes it.
pub fn assignment<T: AsRef<str>>(names: &[T], levels: &[u8]) -> String {
    let pairs = names.iter().zip(levels);
    let pairs: Vec<String> = pairs
        .map(|(name, level)| format!("{}={level}", name.as_ref()))
        .collect();
    pairs.join(" ")
}

/// Text in lines of no more than so many letters, broken between words.
pub fn wrapped(text: &str, width: usize) -> String {
    let mut lines: Vec<String> = Vec::new();
    for word in text.split(' ') {
        match lines.last_mut() {
            Some(line) if line.len() + 1 + word.len() <= width => {
                line.push(' ');
                line.push_str(word);
            }
            _ => lines.push(word.to_string()),
        }
    }
    lines.join("\n")
}

/// What the command is called in messages: `sitgurp`, or what called it in its place.
pub fn program() -> String {
    std::env::var("SITGURP_AS").unwrap_or_else(|_| "sitgurp".to_string())
}

/// Returns a file's name as it is shown: control characters and bytes that are no text are written as `\x1b`, so that no name can steer a terminal.
pub fn file_name(name: &OsStr) -> String {
    let mut shown = String::new();
    for chunk in name.as_encoded_bytes().utf8_chunks() {
        shown.extend(chunk.valid().chars().map(shown_letter));
        for byte in chunk.invalid() {
            shown += &format!("\\x{byte:02x}");
        }
    }
    shown
}

/// Returns lines of text without control characters, as in a word of the command line that a message repeats.
pub fn printable(text: &str) -> String {
    let letters = text.chars().map(|letter| match letter {
        '\n' => letter.to_string(),
        letter => shown_letter(letter),
    });
    letters.collect()
}

fn shown_letter(letter: char) -> String {
    match letter {
        letter if is_plain(letter) => letter.to_string(),
        letter if (letter as u32) < 256 => format!("\\x{:02x}", letter as u32),
        letter => format!("\\u{{{:x}}}", letter as u32),
    }
}

/// Returns whether a letter may be shown as it is: no control character, and none that turns the direction of writing around.
fn is_plain(letter: char) -> bool {
    let turns = matches!(letter, '\u{200e}' | '\u{200f}' | '\u{2028}'..='\u{202e}' | '\u{2066}'..='\u{2069}');
    !letter.is_control() && !turns
}

/// Returns a file's name as a shell takes it for an operand: in quotes where it needs them, and never as an option.
pub fn quoted(name: &OsStr) -> String {
    let bytes = name.as_encoded_bytes();
    let start = if bytes.starts_with(b"-") { "./" } else { "" };
    let is_bare = |byte: &u8| byte.is_ascii_alphanumeric() || b"./_-+,@%".contains(byte);
    match name.to_str() {
        Some(text) if !text.is_empty() && bytes.iter().all(is_bare) => format!("{start}{text}"),
        Some(text) if text.chars().all(is_plain) => {
            format!("{start}'{}'", text.replace('\'', "'\\''"))
        }
        _ => {
            let bytes: String = bytes.iter().map(escaped).collect();
            format!("{start}$'{bytes}'")
        }
    }
}

/// Returns a byte as the shell's `$'..'` takes it.
fn escaped(byte: &u8) -> String {
    match byte {
        b'\'' | b'\\' => format!("\\{}", char::from(*byte)),
        b' '..=b'~' => char::from(*byte).to_string(),
        byte => format!("\\x{byte:02x}"),
    }
}

#[cfg(test)]
mod tests {
    use super::{file_name, quoted};
    use std::ffi::OsStr;
    use std::os::unix::ffi::OsStrExt;

    #[test]
    fn names_of_files() {
        for (name, shown, in_a_command) in [
            (&b"a.table"[..], "a.table", "a.table"),
            (b"-a.table", "-a.table", "./-a.table"),
            (b"my a.table", "my a.table", "'my a.table'"),
            (b"-my a", "-my a", "./'-my a'"),
            (b"it's", "it's", "'it'\\''s'"),
            (b"\x1b[31m", "\\x1b[31m", "$'\\x1b[31m'"),
            (b"a\nb", "a\\x0ab", "$'a\\x0ab'"),
            (b"\xff", "\\xff", "$'\\xff'"),
            ("gr\u{fc}n".as_bytes(), "gr\u{fc}n", "'gr\u{fc}n'"),
            (
                "a\u{202e}b".as_bytes(),
                "a\\u{202e}b",
                "$'a\\xe2\\x80\\xaeb'",
            ),
        ] {
            let name = OsStr::from_bytes(name);
            assert_eq!(file_name(name), shown);
            assert_eq!(quoted(name), in_a_command);
        }
    }
}
