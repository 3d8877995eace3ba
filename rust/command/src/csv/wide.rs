//! UTF-16 with a byte order mark, as spreadsheets write "Unicode text", as UTF-8.

use std::borrow::Cow;

/// Returns a file in UTF-16 with a byte order mark as UTF-8, and any other file as it is.
pub fn narrow(file: &[u8]) -> Cow<'_, [u8]> {
    let unit: fn([u8; 2]) -> u16 = match file {
        // this is UTF-32
        [0xff, 0xfe, 0, 0, ..] => return Cow::Borrowed(file),
        [0xff, 0xfe, ..] => u16::from_le_bytes,
        [0xfe, 0xff, ..] => u16::from_be_bytes,
        _ => return Cow::Borrowed(file),
    };
    let pairs = file[2..].chunks_exact(2);
    let rest = pairs.remainder().len();
    let units = pairs.map(|pair| unit([pair[0], pair[1]]));
    let mut text: String = char::decode_utf16(units)
        .map(|letter| letter.unwrap_or(char::REPLACEMENT_CHARACTER))
        .collect();
    if rest > 0 {
        text.push(char::REPLACEMENT_CHARACTER);
    }
    Cow::Owned(text.into_bytes())
}

#[cfg(test)]
mod tests {
    use super::narrow;

    #[test]
    fn both_orders() {
        let little: Vec<u8> = "\u{feff}\u{e4}\u{1f58b};b\n"
            .encode_utf16()
            .flat_map(u16::to_le_bytes)
            .collect();
        let big: Vec<u8> = "\u{feff}\u{e4}\u{1f58b};b\n"
            .encode_utf16()
            .flat_map(u16::to_be_bytes)
            .collect();
        for file in [little, big] {
            assert_eq!(narrow(&file), "\u{e4}\u{1f58b};b\n".as_bytes());
        }
        assert_eq!(narrow(b"\xff\xfea\0b"), "a\u{fffd}".as_bytes());
        assert_eq!(narrow(b"\xfe\xff\xd8\0\0a"), "\u{fffd}a".as_bytes());
        for file in [
            &b"\xff\xfe\0\0a\0\0\0"[..],
            b"a\0b\0",
            b"",
            b"\xff",
            b"\xef\xbb\xbfa",
        ] {
            assert_eq!(narrow(file), file);
        }
    }
}
