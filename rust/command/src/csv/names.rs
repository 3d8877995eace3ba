//! Valid names from what people write: lowercase letters and digits, a letter first, 8 at most. Names that are written differently stay different.

/// A plain letter, and after it the letters with accents that become it. Any other letter is left out of a name.
const ACCENTS: [&str; 19] = [
    "aàáâãäåāăąǎạảấầẩẫậắằẳẵặ",
    "cçćĉċč",
    "dðďđ",
    "eèéêëēĕėęěẹẻẽếềểễệ",
    "gĝğġģ",
    "hĥħ",
    "iìíîïĩīĭįıỉị",
    "jĵ",
    "kķ",
    "lĺļľŀł",
    "nñńņňŋ",
    "oòóôõöøōŏőǒọỏốồổỗộớờởỡợơ",
    "rŕŗř",
    "sśŝşšș",
    "tţťŧț",
    "uùúûüũūŭůűųụủứừửữựư",
    "wŵ",
    "yýÿŷỳỵỷỹ",
    "zźżž",
];

/// Letters that become two.
const PAIRS: [(char, &str); 4] = [('ß', "ss"), ('æ', "ae"), ('œ', "oe"), ('þ', "th")];

/// The longest name.
const LONGEST: usize = 8;

/// Returns the text of a cell: UTF-8, or else Latin-1, which Windows writes in the west of Europe.
pub fn written(bytes: &[u8]) -> String {
    match std::str::from_utf8(bytes) {
        Ok(text) => text.to_string(),
        Err(_) => bytes.iter().map(|&byte| char::from(byte)).collect(),
    }
}

/// Returns the valid name that is nearest to what is written in a column. A name without a plain letter or digit is `in` with the column's number.
pub fn nearest(written: &str, column: usize) -> String {
    let mut name = String::new();
    for letter in written.chars().flat_map(char::to_lowercase) {
        let pair = PAIRS.iter().find(|(one, _)| *one == letter);
        let accent = ACCENTS.iter().find(|letters| letters.contains(letter));
        match (letter, pair, accent) {
            ('a'..='z' | '0'..='9', _, _) => name.push(letter),
            (_, Some((_, two)), _) => name += two,
            (_, _, Some(letters)) => name.extend(letters.chars().next()),
            _ => {}
        }
    }
    if name.is_empty() {
        return format!("in{column}");
    }
    if name.starts_with(|letter: char| letter.is_ascii_digit()) {
        name.insert(0, 'x');
    }
    name.truncate(LONGEST);
    name
}

/// Returns a valid name for each written one: itself if it is valid, or else the nearest, with a number where that is taken. Two that are written alike get
/// one name, which the library refuses.
pub fn unique(written: &[String]) -> Vec<String> {
    let mut taken: Vec<String> = written
        .iter()
        .filter(|name| is_valid(name))
        .cloned()
        .collect();
    taken.push("ink".to_string());
    let mut names: Vec<String> = Vec::new();
    for (k, one) in written.iter().enumerate() {
        if is_valid(one) {
            names.push(one.clone());
        } else if let Some(earlier) = written[..k].iter().position(|other| other == one) {
            names.push(names[earlier].clone());
        } else {
            let name = free(nearest(one, k + 1), &taken);
            taken.push(name.clone());
            names.push(name);
        }
    }
    names
}

/// Returns a name, with a number at its end where it is taken.
fn free(name: String, taken: &[String]) -> String {
    let numbered = (2..).map(|number: usize| {
        let number = number.to_string();
        format!(
            "{}{number}",
            &name[..name.len().min(LONGEST - number.len())]
        )
    });
    let mut names = std::iter::once(name.clone()).chain(numbered);
    names.find(|name| !taken.contains(name)).unwrap_or(name)
}

fn is_valid(name: &str) -> bool {
    let is_letter = |byte: &u8| matches!(byte, b'a'..=b'z' | b'0'..=b'9');
    let first = name.bytes().next();
    let fits = name.len() <= LONGEST && first.is_some_and(|byte| byte.is_ascii_lowercase());
    fits && name.bytes().all(|byte| is_letter(&byte)) && name != "ink"
}

#[cfg(test)]
mod tests {
    use super::{nearest, unique, written};

    #[test]
    fn nearest_names() {
        for (text, name) in [
            ("near", "near"),
            ("Near", "near"),
            ("My stroke", "mystroke"),
            ("Strichstärke", "strichst"),
            ("Größe", "grosse"),
            ("ÉTÉ", "ete"),
            ("e\u{301}te\u{301}", "ete"),
            ("Łódź", "lodz"),
            ("Ærø", "aero"),
            ("2nd stroke", "x2ndstro"),
            ("weight (0-3)", "weight03"),
            ("重さ", "in4"),
            ("#", "in4"),
        ] {
            assert_eq!(nearest(text, 4), name, "{text}");
        }
        assert_eq!(written("Nähe".as_bytes()), "Nähe");
        assert_eq!(written(b"N\xe4he"), "Nähe");
    }

    #[test]
    fn names_stay_different() {
        let names = |written: &[&str]| {
            let written: Vec<String> = written.iter().map(|name| name.to_string()).collect();
            unique(&written).join(" ")
        };
        assert_eq!(names(&["A", "a", "á"]), "a2 a a3");
        assert_eq!(
            names(&["Stroke weight", "Stroke width"]),
            "strokewe strokewi"
        );
        assert_eq!(
            names(&["longer name 1", "longer name 2"]),
            "longerna longern2"
        );
        assert_eq!(names(&["Ink", "ink", "INK"]), "ink2 ink3 ink4");
        assert_eq!(names(&["a", "a"]), "a a");
        assert_eq!(names(&["My a", "My a"]), "mya mya");
        let many: Vec<String> = (0..12).map(|k| format!("abcdefgh {k}")).collect();
        assert_eq!(unique(&many)[11], "abcdef12");
    }
}
