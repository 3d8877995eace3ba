//! Portable graymaps (PGM), plain or raw, and the picture of levels that one is reduced to.

use crate::Picture;
use std::fmt;

/// A gray image, row by row: gray 0 is black, and `highest` is white.
#[derive(Clone, Debug, PartialEq, Eq)]
pub struct Graymap {
    pub width: usize,
    pub height: usize,
    pub highest: u16,
    pub grays: Vec<u16>,
}

/// Why a file is no graymap, and at which byte.
#[derive(Clone, Debug, PartialEq, Eq)]
pub struct GraymapFault {
    pub place: usize,
    pub words: String,
}

impl fmt::Display for GraymapFault {
    fn fmt(&self, f: &mut fmt::Formatter<'_>) -> fmt::Result {
        f.write_str(&self.words)
    }
}

impl std::error::Error for GraymapFault {}

impl Graymap {
    /// Reads a graymap in plain text (`P2`) or raw (`P5`, two bytes a gray where the highest is above 255). A `#` begins a comment.
    ///
    /// ```
    /// let plain = sitgurp::Graymap::read(b"P2 # a comment\n3 1 255\n0 100 255\n").unwrap();
    /// assert_eq!(plain.grays, [0, 100, 255]);
    /// let raw = sitgurp::Graymap::read(b"P5\n2 1\n1000\n\x00\x01\x03\xe8").unwrap();
    /// assert_eq!(raw.grays, [1, 1000]);
    /// let fault = sitgurp::Graymap::read(b"P6\n2 1\n255\n").unwrap_err();
    /// assert_eq!(fault.to_string(), "a portable graymap begins `P2` or `P5`, not `P6`");
    /// ```
    pub fn read(file: &[u8]) -> Result<Graymap, GraymapFault> {
        let mut fields = Fields { file, at: 0 };
        let (place, kind) = fields.next().unwrap_or((0, &[]));
        if !matches!(kind, b"P2" | b"P5") {
            let words = format!(
                "a portable graymap begins `P2` or `P5`, not `{}`",
                shown(kind)
            );
            return Err(GraymapFault { place, words });
        }
        let [width, height] = [
            fields.number("the width")?.1,
            fields.number("the height")?.1,
        ];
        let (place, highest) = fields.number("the highest gray")?;
        let highest = match u16::try_from(highest) {
            Ok(highest @ 1..) => highest,
            _ => {
                let words = format!("the highest gray should be from 1 to 65535, not `{highest}`");
                return Err(GraymapFault { place, words });
            }
        };
        let found = match kind {
            b"P2" => fields.plain(highest)?,
            _ => fields.raw(width.saturating_mul(height), highest)?,
        };
        let due = width.saturating_mul(height);
        if found.len() != due {
            let grays = match found.len() {
                1 => "1 gray".to_string(),
                count => format!("{count} grays"),
            };
            return Err(GraymapFault {
                place: found.get(due).map_or(file.len(), |(place, _)| *place),
                words: format!("the picture has {grays}, and {width} times {height} are due"),
            });
        }
        Ok(Graymap {
            width,
            height,
            highest,
            grays: found.into_iter().map(|(_, gray)| gray).collect(),
        })
    }

    /// Returns the picture in so many levels by equal steps: level 0 for the lightest grays, the highest level for the darkest. If there are as many grays as
    /// levels, each gray is a level.
    ///
    /// ```
    /// let graymap = sitgurp::Graymap::read(b"P2\n4 1\n255\n255 192 191 0\n").unwrap();
    /// assert_eq!(graymap.picture(4).cells, [0, 0, 1, 3]);
    /// ```
    pub fn picture(&self, levels: u8) -> Picture {
        let grays = u32::from(self.highest) + 1;
        let level = |gray: u16| {
            let step = u32::from(gray) * u32::from(levels) / grays;
            levels.saturating_sub(1).saturating_sub(step as u8)
        };
        self.by(level)
    }

    /// Returns the picture by a list of steps, each a gray and the level from that gray on. Below the first gray the level is 0.
    ///
    /// ```
    /// let graymap = sitgurp::Graymap::read(b"P2\n4 1\n255\n255 100 99 0\n").unwrap();
    /// assert_eq!(graymap.picture_by(&[(0, 2), (100, 0), (200, 1)]).cells, [1, 0, 2, 2]);
    /// ```
    pub fn picture_by(&self, steps: &[(u16, u8)]) -> Picture {
        let level = |gray: u16| {
            let step = steps.iter().rev().find(|(from, _)| *from <= gray);
            step.map_or(0, |(_, level)| *level)
        };
        self.by(level)
    }

    fn by(&self, level: impl Fn(u16) -> u8) -> Picture {
        Picture {
            width: self.width,
            height: self.height,
            cells: self.grays.iter().map(|&gray| level(gray)).collect(),
        }
    }
}

/// The fields of a graymap from a place on.
struct Fields<'a> {
    file: &'a [u8],
    at: usize,
}

impl<'a> Iterator for Fields<'a> {
    type Item = (usize, &'a [u8]);

    /// The next field with its place, behind white space and comments.
    fn next(&mut self) -> Option<(usize, &'a [u8])> {
        loop {
            let rest = &self.file[self.at..];
            let first = *rest.first()?;
            let is_end = |byte: &u8| match first {
                b'#' => matches!(byte, b'\n' | b'\r'),
                _ => byte.is_ascii_whitespace() || *byte == b'#',
            };
            let length = rest.iter().position(is_end).unwrap_or(rest.len());
            let place = self.at;
            self.at += length;
            match (first, length) {
                // a comment
                (b'#', _) => {}
                // white space
                (_, 0) => self.at += 1,
                _ => return Some((place, &rest[..length])),
            }
        }
    }
}

impl Fields<'_> {
    /// A number of the header.
    fn number(&mut self, name: &str) -> Result<(usize, usize), GraymapFault> {
        let end = self.file.len();
        let (place, field) = self.next().unwrap_or((end, &[]));
        let words = match whole(field) {
            Some(number) => return Ok((place, number)),
            None if field.is_empty() => format!("{name} is missing"),
            None => format!("{name} should be a whole number, not `{}`", shown(field)),
        };
        Err(GraymapFault { place, words })
    }

    /// The grays in plain text, each with its place.
    fn plain(self, highest: u16) -> Result<Vec<(usize, u16)>, GraymapFault> {
        let gray = |(place, field)| match whole(field) {
            Some(gray) if gray <= usize::from(highest) => Ok((place, gray as u16)),
            _ => Err(wrong_gray(place, highest, &shown(field))),
        };
        self.map(gray).collect()
    }

    /// The grays in bytes behind one byte of white space, each with its place. White space behind the last is left out.
    fn raw(self, due: usize, highest: u16) -> Result<Vec<(usize, u16)>, GraymapFault> {
        let size = if highest > 255 { 2 } else { 1 };
        let start = (self.at + 1).min(self.file.len());
        let raster = &self.file[start..];
        let (front, rest) = raster.split_at(due.saturating_mul(size).min(raster.len()));
        let raster = if rest.trim_ascii().is_empty() {
            front
        } else {
            raster
        };
        let grays = raster.chunks_exact(size).enumerate().map(|(k, bytes)| {
            let gray = bytes
                .iter()
                .fold(0, |gray, &byte| gray * 256 + u16::from(byte));
            let place = start + k * size;
            match gray <= highest {
                true => Ok((place, gray)),
                false => Err(wrong_gray(place, highest, &gray.to_string())),
            }
        });
        grays.collect()
    }
}

fn wrong_gray(place: usize, highest: u16, found: &str) -> GraymapFault {
    let words = format!("a gray should be a whole number from 0 to {highest}, not `{found}`");
    GraymapFault { place, words }
}

/// A whole number in digits alone.
fn whole(field: &[u8]) -> Option<usize> {
    let is_number = !field.is_empty() && field.iter().all(u8::is_ascii_digit);
    let text = std::str::from_utf8(field).ok().filter(|_| is_number)?;
    text.parse().ok()
}

/// A field as it is shown in words.
fn shown(field: &[u8]) -> String {
    const LONGEST: usize = 40;
    match field.get(..LONGEST) {
        Some(front) if field.len() > LONGEST => format!("{}..", front.escape_ascii()),
        _ => field.escape_ascii().to_string(),
    }
}

#[cfg(test)]
mod tests {
    use super::Graymap;
    use crate::Picture;

    #[test]
    fn plain_and_raw_are_alike() {
        let plain =
            Graymap::read(b"P2\n#c\n2#c\n2\n# c\n 300 0 1\n\n299 300#end").expect("a graymap");
        assert_eq!(plain.grays, [0, 1, 299, 300]);
        let raster = [0, 0, 0, 1, 1, 43, 1, 44];
        for end in [&b""[..], b"\n", b" \r\n"] {
            let raw = [b"P5 2 2#c\n300\n", &raster[..], end].concat();
            assert_eq!(Graymap::read(&raw).as_ref(), Ok(&plain));
        }
        let small = Graymap::read(b"P5\n3 1\n255\n\n#\xff").expect("a graymap");
        assert_eq!(small.grays, [10, 35, 255]);
    }

    #[test]
    fn as_many_grays_as_levels() {
        let text = "P2\n4 1\n3\n3 2 1 0\n";
        let graymap = Graymap::read(text.as_bytes()).expect("a graymap");
        let (picture, levels) = Picture::from_pgm(text).expect("a picture");
        assert_eq!((graymap.picture(levels), levels), (picture, 4));
    }

    /// Every level has as many grays as any other, or one more.
    #[test]
    fn steps_are_equal() {
        for highest in [1, 8, 99, 255, 256, 65535] {
            let grays: Vec<u16> = (0..=highest).collect();
            let graymap = Graymap {
                width: grays.len(),
                height: 1,
                highest,
                grays,
            };
            for levels in 2..=9 {
                let cells = graymap.picture(levels).cells;
                assert!(cells.is_sorted_by(|one, other| one >= other));
                let count = |level| cells.iter().filter(|&&cell| cell == level).count();
                let counts: Vec<usize> = (0..levels).map(count).collect();
                assert_eq!(counts.iter().sum::<usize>(), cells.len());
                let [least, most] = [counts.iter().min(), counts.iter().max()].map(Option::unwrap);
                assert!(most - least <= 1, "{highest} {levels}: {counts:?}");
            }
        }
    }

    #[test]
    fn faults_have_places() {
        for (file, place, words) in [
            (
                &b""[..],
                0,
                "a portable graymap begins `P2` or `P5`, not ``",
            ),
            (
                b"P5\n1 x 1\n",
                5,
                "the height should be a whole number, not `x`",
            ),
            (
                b"P5\n1 +1 1\n",
                5,
                "the height should be a whole number, not `+1`",
            ),
            (b"P5\n1 1", 6, "the highest gray is missing"),
            (
                b"P5\n1 1 0\n0",
                7,
                "the highest gray should be from 1 to 65535, not `0`",
            ),
            (
                b"P2\n1 1 65536\n0",
                7,
                "the highest gray should be from 1 to 65535, not `65536`",
            ),
            (
                b"P5\n1 1 9\n\x0a",
                9,
                "a gray should be a whole number from 0 to 9, not `10`",
            ),
            (
                b"P5\n2 1 9\n\x01",
                10,
                "the picture has 1 gray, and 2 times 1 are due",
            ),
            (
                b"P5\n2 1 300\n\0\x01\0",
                14,
                "the picture has 1 gray, and 2 times 1 are due",
            ),
            (
                b"P5\n1 1 9\n\x01\x02",
                10,
                "the picture has 2 grays, and 1 times 1 are due",
            ),
            (
                b"P2\n1 1 9\n-1",
                9,
                "a gray should be a whole number from 0 to 9, not `-1`",
            ),
        ] {
            let fault = Graymap::read(file).expect_err(words);
            assert_eq!((fault.place, fault.words.as_str()), (place, words));
        }
    }
}
