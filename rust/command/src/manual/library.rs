//! The page of the library, made from the header for C: its comments and declarations are the page's text.

use super::roff::{code, paragraphs};
use super::title;

const HEADER: &str = include_str!("../../../../include/sitgurp.h");

/// A comment of the header and the declarations below it.
#[derive(Debug, Default, PartialEq)]
struct Part {
    comment: String,
    code: String,
}

/// Returns the page of the library.
pub fn library() -> String {
    let mut parts = parts(HEADER).into_iter();
    let Part {
        comment,
        code: version,
    } = parts.next().unwrap_or_default();
    let mut page = title(3, "Library Functions");
    page += ".SH NAME\nsitgurp \\- proved calls on tables of shades and trees of two-input gates\n";
    page += ".SH SYNOPSIS\n.nf\n.B #include <sitgurp.h>\n.PP\n";
    page += "cc YOURS.c $(pkg\\-config \\-\\-cflags \\-\\-libs sitgurp)\n.fi\n";
    page += &format!(".SH DESCRIPTION\n{}", paragraphs(&comment));
    let (calls, types): (Vec<Part>, Vec<Part>) = parts.partition(|part| name(part).is_some());
    page += &format!(".SH TYPES AND CONSTANTS\n{}", code(&version));
    for part in types {
        page += &format!(".PP\n{}{}", paragraphs(&part.comment), code(&part.code));
    }
    page += ".SH CALLS\n";
    for part in calls {
        let name = name(&part).unwrap_or_default();
        page += &format!(
            ".SS {name}\n{}{}",
            paragraphs(&part.comment),
            code(&prototypes(&part.code))
        );
    }
    page + ".SH SEE ALSO\n.BR sitgurp (1),\n.BR sitgurp (5)\n"
}

/// Returns the name of the first call that a part declares, if it declares one.
fn name(part: &Part) -> Option<&str> {
    let line = part.code.lines().next()?;
    if line.starts_with("typedef") || line.starts_with(['#', '}']) || line.starts_with("enum") {
        return None;
    }
    let before = line.split('(').next()?;
    before
        .split([' ', '*'])
        .next_back()
        .filter(|name| name.starts_with("sitgurp_"))
}

/// Returns declarations without the bodies of functions.
fn prototypes(code: &str) -> String {
    let mut lines = Vec::new();
    let mut in_body = false;
    for line in code.lines() {
        if in_body {
            in_body = !line.starts_with('}');
            continue;
        }
        in_body = line.ends_with('{');
        let line = line.strip_prefix("static inline ").unwrap_or(line);
        lines.push(match line.strip_suffix(" {") {
            Some(front) => format!("{front};"),
            None => line.to_string(),
        });
    }
    lines.join("\n")
}

/// Takes the header apart: each comment that begins a line, with the lines below it up to the next such comment.
fn parts(header: &str) -> Vec<Part> {
    let mut parts: Vec<Part> = Vec::new();
    let mut lines = header.lines();
    while let Some(line) = lines.next() {
        if line.starts_with("#if") && line.contains("__cplusplus") {
            // what C++ needs besides
            lines.by_ref().find(|line| line.starts_with("#endif"));
        } else if let Some(first) = line.strip_prefix("/*") {
            let mut comment = String::new();
            let mut text = first.to_string();
            while !text.contains("*/") {
                comment += &comment_line(&text);
                text = lines.next().unwrap_or("*/").to_string();
            }
            comment += &comment_line(text.split("*/").next().unwrap_or(""));
            let code = String::new();
            parts.push(Part { comment, code });
        } else if let Some(part) = parts.last_mut() {
            if !line.is_empty() && !is_frame(line) {
                part.code += &format!("{line}\n");
            }
        }
    }
    parts.retain(|part| !part.comment.is_empty() || !part.code.is_empty());
    parts
}

/// Returns a line of a comment without what frames it.
fn comment_line(line: &str) -> String {
    let line = line.trim().trim_start_matches('*').trim();
    // a blank line separates paragraphs, and the list of refusals is one of its own
    match line {
        "" => "\n\n".to_string(),
        line if line.starts_with("Refusals:") => format!("\n\n{line}\n"),
        line => format!("{line}\n"),
    }
}

/// Returns whether a line only frames the header.
fn is_frame(line: &str) -> bool {
    let frames = ["#if", "#endif", "#include"];
    line == "#define SITGURP_H" || frames.iter().any(|frame| line.starts_with(frame))
}

#[cfg(test)]
mod tests {
    use super::{library, parts, prototypes};

    #[test]
    fn a_header_is_taken_apart() {
        let header = "/*\n * About.\n *\n * More.\n */\n#ifndef X\n\n\
                      /* One. */\nint sitgurp_one(void);\n\n\
                      /*\n * Two.\n * Refusals: 1.\n */\nint sitgurp_two(int a,\n    int b);\n#ifdef __cplusplus\n}\n#endif\n";
        let parts = parts(header);
        assert_eq!(parts.len(), 3);
        assert_eq!(parts[1].comment, "One.\n");
        assert_eq!(parts[1].code, "int sitgurp_one(void);\n");
        assert_eq!(parts[2].code, "int sitgurp_two(int a,\n    int b);\n");
        let inline = "static inline int f(int a) {\n    return a;\n}\nint g(void);";
        assert_eq!(prototypes(inline), "int f(int a);\nint g(void);");
    }

    /// Whatever the header declares is in the page.
    #[test]
    fn every_call_has_its_section() {
        let page = library();
        for line in super::HEADER.lines() {
            let is_call = line.starts_with("sitgurp_") || line.starts_with("static inline");
            if let Some(front) = line.split('(').next().filter(|_| is_call) {
                let name = front.split(' ').next_back().expect("a name");
                assert!(page.contains(&format!("{name}(")), "{name}");
            }
            if let Some(name) = line.strip_prefix("#define SITGURP_") {
                let name = name.split(' ').next().expect("a name");
                assert!(
                    name == "H" || page.contains(&format!("SITGURP_{name}")),
                    "{name}"
                );
            }
        }
        assert!(page.matches(".SS sitgurp_").count() >= 17);
    }
}
