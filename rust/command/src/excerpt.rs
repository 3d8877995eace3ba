//! A line of a sheet as it is shown, with a caret under the place.

/// The widest line that is shown whole.
const WIDEST: usize = 90;
/// How much is shown before the place in a wider one.
const BEFORE: usize = 40;

/// Returns the line of a place and a line with a caret below it, both indented; nothing where the line is empty. A byte that is no printable letter is shown
/// in another way, such as `\t`. A place at the line's end is shown as `\n` or `<end of file>`, so the caret is always below something.
pub fn excerpt(sheet: &[u8], place: usize) -> String {
    let place = place.min(sheet.len());
    let start = sheet[..place]
        .iter()
        .rposition(|&byte| byte == b'\n')
        .map_or(0, |feed| feed + 1);
    let length = sheet[start..].iter().position(|&byte| byte == b'\n');
    let line = &sheet[start..start + length.unwrap_or(sheet.len() - start)];
    if line.is_empty() {
        return String::new();
    }
    let (before, after) = line.split_at(place - start);
    let (mut before, mut after) = (shown(before), shown(after));
    if after.is_empty() {
        let end = if length.is_some() {
            "\\n"
        } else {
            "<end of file>"
        };
        after = end.to_string();
    }
    if before.chars().count() + after.chars().count() > WIDEST {
        let skipped = before.chars().count().saturating_sub(BEFORE);
        if skipped > 0 {
            before = format!("..{}", before.chars().skip(skipped).collect::<String>());
        }
        let room = WIDEST - before.chars().count();
        if after.chars().count() > room {
            after = format!("{}..", after.chars().take(room).collect::<String>());
        }
    }
    let indent = " ".repeat(before.chars().count());
    format!("    {before}{after}\n    {indent}^\n")
}

/// Returns where a line begins, counted from 0.
pub fn line_start(sheet: &[u8], line: usize) -> usize {
    let lines = sheet.split_inclusive(|&byte| byte == b'\n');
    lines.take(line).map(<[u8]>::len).sum()
}

/// Returns a field of a sheet as it is shown in a sentence.
pub fn field(bytes: &[u8]) -> String {
    const LONGEST: usize = 40;
    match bytes.get(..LONGEST) {
        Some(front) if bytes.len() > LONGEST => shown(front) + "..",
        _ => shown(bytes),
    }
}

/// Returns bytes as they are shown, each that is no printable letter in another way.
fn shown(bytes: &[u8]) -> String {
    let mut text = String::new();
    for &byte in bytes {
        match byte {
            b' '..=b'~' => text.push(char::from(byte)),
            b'\t' => text += "\\t",
            b'\r' => text += "\\r",
            byte => text += &format!("\\x{byte:02x}"),
        }
    }
    text
}
