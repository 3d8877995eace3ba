//! JSON, read: just enough for a line of the stream. What is not JSON is an error with its place.

/// A place in a line and what is read from it.
pub struct Reader<'a> {
    line: &'a str,
    at: usize,
}

/// What is wrong, in words.
pub type Read<T> = Result<T, String>;

/// How deep lists and objects may be in each other.
const DEEPEST: usize = 64;

impl<'a> Reader<'a> {
    pub fn of(line: &'a str) -> Reader<'a> {
        Reader { line, at: 0 }
    }

    /// Reads an object, whose members are read by a function of their names.
    pub fn object(
        &mut self,
        mut member: impl FnMut(&mut Reader<'a>, String) -> Read<()>,
    ) -> Read<()> {
        self.sequence(b'{', b'}', |reader| {
            let name = reader.text()?;
            reader.token(b':')?;
            member(reader, name)
        })
    }

    /// Reads a list of texts.
    pub fn texts(&mut self) -> Read<Vec<String>> {
        let mut texts = Vec::new();
        self.sequence(b'[', b']', |reader| {
            texts.push(reader.text()?);
            Ok(())
        })?;
        Ok(texts)
    }

    /// Reads a text.
    pub fn text(&mut self) -> Read<String> {
        self.token(b'"')?;
        let mut text = String::new();
        loop {
            let rest = &self.line[self.at..];
            let ends = |byte: &u8| *byte == b'"' || *byte == b'\\' || *byte < b' ';
            let plain = rest.as_bytes().iter().position(ends);
            let plain = plain.unwrap_or(rest.len());
            text += &rest[..plain];
            self.at += plain;
            match rest.as_bytes().get(plain) {
                Some(b'"') => {
                    self.at += 1;
                    return Ok(text);
                }
                Some(b'\\') => {
                    self.at += 1;
                    text.push(self.escape()?);
                }
                Some(_) => return Err(self.wrong("a control character in a text")),
                None => return Err(self.wrong("a text without its closing quote")),
            }
        }
    }

    /// Reads what is behind a backslash.
    fn escape(&mut self) -> Read<char> {
        let letter = self.line.as_bytes().get(self.at).copied();
        self.at += usize::from(letter.is_some_and(|letter| letter.is_ascii()));
        Ok(match letter {
            Some(letter @ (b'"' | b'\\' | b'/')) => char::from(letter),
            Some(b'b') => '\u{8}',
            Some(b'f') => '\u{c}',
            Some(b'n') => '\n',
            Some(b'r') => '\r',
            Some(b't') => '\t',
            Some(b'u') => return self.unicode(),
            _ => return Err(self.wrong("an escape that JSON does not have")),
        })
    }

    /// Reads a letter by its number, or by the two halves of it.
    fn unicode(&mut self) -> Read<char> {
        let first = self.four_digits()?;
        let number = match first {
            0xd800..=0xdbff if self.line[self.at..].starts_with("\\u") => {
                self.at += 2;
                let second = self.four_digits()?;
                0x10000 + ((first - 0xd800) << 10) + second.wrapping_sub(0xdc00) % 0x400
            }
            number => number,
        };
        char::from_u32(number).ok_or_else(|| self.wrong("half a letter"))
    }

    fn four_digits(&mut self) -> Read<u32> {
        let digits = self.line.get(self.at..self.at + 4);
        let digits = digits.filter(|digits| digits.bytes().all(|digit| digit.is_ascii_hexdigit()));
        let number = digits.and_then(|digits| u32::from_str_radix(digits, 16).ok());
        let number = number.ok_or_else(|| self.wrong("`\\u` without four digits"))?;
        self.at += 4;
        Ok(number)
    }

    /// Reads any value, and returns it as it is written.
    pub fn raw(&mut self) -> Read<&'a str> {
        self.spaces();
        let start = self.at;
        self.value(0)?;
        Ok(&self.line[start..self.at])
    }

    fn value(&mut self, depth: usize) -> Read<()> {
        self.spaces();
        if depth > DEEPEST {
            return Err(self.wrong("too many lists or objects in each other"));
        }
        match self.line.as_bytes().get(self.at) {
            Some(b'"') => self.text().map(drop),
            Some(b'[') => self.sequence(b'[', b']', |reader| reader.value(depth + 1)),
            Some(b'{') => self.sequence(b'{', b'}', |reader| {
                reader.text()?;
                reader.token(b':')?;
                reader.value(depth + 1)
            }),
            _ => self.word(),
        }
    }

    /// Reads `null`, `true`, `false` or a number.
    fn word(&mut self) -> Read<()> {
        let rest = &self.line[self.at..];
        let is_part = |letter: char| letter.is_ascii_alphanumeric() || "+-.".contains(letter);
        let length = rest.find(|letter| !is_part(letter)).unwrap_or(rest.len());
        let word = &rest[..length];
        if !matches!(word, "null" | "true" | "false") && !is_number(word) {
            return Err(self.wrong("a value"));
        }
        self.at += length;
        Ok(())
    }

    /// Reads items with commas between.
    fn sequence(
        &mut self,
        open: u8,
        close: u8,
        mut item: impl FnMut(&mut Reader<'a>) -> Read<()>,
    ) -> Read<()> {
        self.token(open)?;
        if self.token(close).is_ok() {
            return Ok(());
        }
        loop {
            item(self)?;
            if self.token(b',').is_err() {
                return self.token(close);
            }
        }
    }

    /// Passes over spaces and one letter that has to be there.
    fn token(&mut self, due: u8) -> Read<()> {
        self.spaces();
        match self.line.as_bytes().get(self.at) {
            Some(&byte) if byte == due => {
                self.at += 1;
                Ok(())
            }
            _ => Err(self.wrong(&format!("`{}`", char::from(due)))),
        }
    }

    fn spaces(&mut self) {
        let rest = &self.line[self.at..];
        self.at += rest.len() - rest.trim_start_matches([' ', '\t', '\r']).len();
    }

    /// Reads the end of the line.
    pub fn end(&mut self) -> Read<()> {
        self.spaces();
        match self.at == self.line.len() {
            true => Ok(()),
            false => Err(self.wrong("the end of the line")),
        }
    }

    /// Says what should be at this place, or what is wrong there.
    fn wrong(&self, what: &str) -> String {
        let column = self.at + 1;
        match what.starts_with(['`', 't']) || what == "a value" {
            true => format!("no JSON at column {column}: {what} should be there"),
            false => format!("no JSON at column {column}: {what}"),
        }
    }
}

/// Returns whether a word is a number as JSON has it.
fn is_number(word: &str) -> bool {
    let word = word.strip_prefix('-').unwrap_or(word);
    let (word, exponent) = match word.split_once(['e', 'E']) {
        Some((word, exponent)) => (word, exponent.strip_prefix(['+', '-']).unwrap_or(exponent)),
        None => (word, "0"),
    };
    let (whole, part) = word.split_once('.').unwrap_or((word, "0"));
    let is_digits = |text: &str| !text.is_empty() && text.bytes().all(|byte| byte.is_ascii_digit());
    let no_zero = whole.len() == 1 || !whole.starts_with('0');
    is_digits(whole) && no_zero && is_digits(part) && is_digits(exponent)
}

#[cfg(test)]
mod tests {
    use super::{is_number, Reader};

    #[test]
    fn texts() {
        let text = |line: &str| Reader::of(line).text();
        assert_eq!(
            text(r#""a\n\"\\\u00e9\ud83d\ude00""#).as_deref(),
            Ok("a\n\"\\\u{e9}\u{1f600}")
        );
        for bad in [
            "",
            "\"a",
            "\"\\x\"",
            "\"\\u12\"",
            "\"\\ud800\"",
            "\"\t\"",
            "a",
            "\"\\",
            "\"\\\u{e9}\"",
        ] {
            assert!(text(bad).is_err(), "{bad}");
        }
    }

    #[test]
    fn values_as_they_are_written() {
        for value in [
            "1",
            "-0.5e+3",
            "null",
            "\"a\\u0041\"",
            "[1, {\"a\": []}]",
            "{}",
            "true",
        ] {
            let mut reader = Reader::of(value);
            assert_eq!(reader.raw(), Ok(value));
            assert_eq!(reader.end(), Ok(()));
        }
        for bad in [
            "", "nul", "01", "1.", ".5", "1e", "[1,]", "[1 2]", "{\"a\"}", "{a:1}", "+1", "--1",
        ] {
            let mut reader = Reader::of(bad);
            assert!(reader.raw().is_err() || reader.end().is_err(), "{bad}");
        }
        assert!(Reader::of(&"[".repeat(100_000)).raw().is_err());
        assert!(is_number("0") && !is_number("") && !is_number("1e5.5"));
    }
}
