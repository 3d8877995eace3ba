//! Text as a manual page has it.

/// Returns text that means itself in a page.
pub fn escaped(text: &str) -> String {
    let mut escaped = String::new();
    for line in text.split_inclusive('\n') {
        if line.starts_with(['.', '\'']) {
            escaped += "\\&";
        }
        for letter in line.chars() {
            match letter {
                '\\' => escaped += "\\e",
                '-' => escaped += "\\-",
                letter => escaped.push(letter),
            }
        }
    }
    escaped
}

/// Returns text in bold.
pub fn bold(text: &str) -> String {
    format!("\\fB{}\\fR", escaped(text))
}

/// Returns paragraphs, which blank lines separate. What is between backquotes is bold.
pub fn paragraphs(text: &str) -> String {
    let text = text.trim_end();
    let paragraphs = text.split("\n\n").map(|paragraph| {
        let words: Vec<&str> = paragraph.split_whitespace().collect();
        let words = words.join(" ");
        let pieces = words.split('`').enumerate();
        let pieces = pieces.map(|(k, piece)| match k % 2 {
            0 => escaped(piece),
            _ => bold(piece),
        });
        let line: String = pieces.collect();
        // a control character may be at the front of the line only
        match line.starts_with(['.', '\'']) {
            true => format!("\\&{line}\n"),
            false => format!("{line}\n"),
        }
    });
    paragraphs.collect::<Vec<String>>().join(".PP\n")
}

/// Returns lines as they are, indented.
pub fn code(text: &str) -> String {
    format!(".PP\n.nf\n.RS\n{}\n.RE\n.fi\n", escaped(text.trim_end()))
}

#[cfg(test)]
mod tests {
    use super::{code, paragraphs};

    #[test]
    fn text_means_itself() {
        assert_eq!(
            paragraphs("a `b-c` d\ne\n\n.x"),
            "a \\fBb\\-c\\fR d e\n.PP\n\\&.x\n"
        );
        assert_eq!(
            code("a\n.b \\n\n"),
            ".PP\n.nf\n.RS\na\n\\&.b \\en\n.RE\n.fi\n"
        );
    }
}
