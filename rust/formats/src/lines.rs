//! The words of a file: comments and line ends are left out, and a line that ends in `\` goes on in the next one.

use crate::Fault;

/// A word and its place in the file.
#[derive(Clone, Copy, Debug, PartialEq, Eq)]
pub struct Word<'a> {
    pub text: &'a [u8],
    pub place: usize,
}

impl Word<'_> {
    /// Returns the word as it is shown in a sentence.
    pub fn shown(&self) -> String {
        shown(self.text)
    }
}

/// Returns a name as it is shown in a sentence.
pub fn shown(name: &[u8]) -> String {
    const LONGEST: usize = 40;
    let text: String = String::from_utf8_lossy(name)
        .chars()
        .map(|letter| if letter.is_control() { '?' } else { letter })
        .collect();
    match text.char_indices().nth(LONGEST) {
        Some((end, _)) => format!("`{}..`", &text[..end]),
        None => format!("`{text}`"),
    }
}

/// Returns the lines that have words, in their order.
pub fn lines(file: &[u8]) -> Vec<Vec<Word<'_>>> {
    let mut lines = Vec::new();
    let mut line = Vec::new();
    let mark = b"\xef\xbb\xbf";
    let mut place = if file.starts_with(mark) {
        mark.len()
    } else {
        0
    };
    for text in file[place..].split_inclusive(|&byte| byte == b'\n') {
        let end = text.iter().position(|&byte| byte == b'#');
        let mut code = text[..end.unwrap_or(text.len())].trim_ascii_end();
        let goes_on = code.ends_with(b"\\");
        if goes_on {
            code = &code[..code.len() - 1];
        }
        let mut start = 0;
        for word in code.split(|byte| byte.is_ascii_whitespace()) {
            if !word.is_empty() {
                line.push(Word {
                    text: word,
                    place: place + start,
                });
            }
            start += word.len() + 1;
        }
        place += text.len();
        if !goes_on && !line.is_empty() {
            lines.push(std::mem::take(&mut line));
        }
    }
    if !line.is_empty() {
        lines.push(line);
    }
    lines
}

/// Returns the fault at a place of a file.
pub fn fault(file: &[u8], place: usize, words: impl Into<String>) -> Fault {
    let before = &file[..place.min(file.len())];
    Fault {
        line: 1 + before.iter().filter(|&&byte| byte == b'\n').count(),
        place,
        words: words.into(),
    }
}

#[cfg(test)]
mod tests {
    use super::lines;

    #[test]
    fn comments_and_lines_that_go_on() {
        let file = b"\xef\xbb\xbf.inputs a \\\r\n  b # c \\\n\n# d\n.names\ta b x\\\n y\n11 1";
        let words: Vec<Vec<&str>> = lines(file)
            .iter()
            .map(|line| {
                let text = line.iter().map(|word| word.text);
                text.map(|text| std::str::from_utf8(text).expect("text"))
                    .collect()
            })
            .collect();
        assert_eq!(
            words,
            [
                vec![".inputs", "a", "b"],
                vec![".names", "a", "b", "x", "y"],
                vec!["11", "1"]
            ]
        );
        for word in lines(file).concat() {
            assert!(file[word.place..].starts_with(word.text));
        }
    }
}
