//! A picture of levels, as text and as a portable graymap.

/// Cells row by row, one level a cell. Whether its sides and its levels suit a net is the library's to say.
#[derive(Clone, Debug, PartialEq, Eq)]
pub struct Picture {
    pub width: usize,
    pub height: usize,
    pub cells: Vec<u8>,
}

impl Picture {
    /// A picture from text: a line for each row, a digit for each cell, and `.` for level 0. None where the rows are not equally long, or another
    /// byte stands in one.
    ///
    /// ```
    /// let picture = sitgurp::Picture::from_text(".12\n3.0\n").unwrap();
    /// assert_eq!((picture.width, picture.height), (3, 2));
    /// assert_eq!(picture.cells, [0, 1, 2, 3, 0, 0]);
    /// assert_eq!(picture.to_text(), ".12\n3..\n");
    /// assert_eq!(sitgurp::Picture::from_text("12\n3\n"), None);
    /// ```
    pub fn from_text(text: &str) -> Option<Picture> {
        let width = text.lines().next().map_or(0, str::len);
        let mut cells = Vec::new();
        for line in text.lines() {
            if line.len() != width {
                return None;
            }
            for byte in line.bytes() {
                cells.push(match byte {
                    b'.' => 0,
                    b'0'..=b'9' => byte - b'0',
                    _ => return None,
                });
            }
        }
        let height = text.lines().count();
        Some(Picture {
            width,
            height,
            cells,
        })
    }

    /// As [`Picture::from_text`] reads it. A level above 9 has no digit and is written `#`.
    pub fn to_text(&self) -> String {
        let cell = |&level: &u8| match level {
            0 => '.',
            1..=9 => char::from(b'0' + level),
            _ => '#',
        };
        let row = |row: &[u8]| row.iter().map(cell).chain(['\n']).collect::<String>();
        self.cells.chunks(self.width.max(1)).map(row).collect()
    }

    /// A plain portable graymap (PGM, `P2`) of that many levels: level 0 is white and the highest is black.
    ///
    /// ```
    /// let picture = sitgurp::Picture::from_text(".12\n3..\n").unwrap();
    /// assert_eq!(picture.to_pgm(4), "P2\n3 2\n3\n3 2 1\n0 3 3\n");
    /// assert_eq!(sitgurp::Picture::from_pgm(&picture.to_pgm(4)), Some((picture, 4)));
    /// ```
    pub fn to_pgm(&self, levels: u8) -> String {
        let highest = levels.saturating_sub(1);
        let gray = |level: &u8| highest.saturating_sub(*level).to_string();
        let row = |row: &[u8]| row.iter().map(gray).collect::<Vec<_>>().join(" ") + "\n";
        let rows: String = self.cells.chunks(self.width.max(1)).map(row).collect();
        format!("P2\n{} {}\n{highest}\n{rows}", self.width, self.height)
    }

    /// A picture and its number of levels from a plain portable graymap, in which a `#` begins a comment. None where it is no such file, or a gray is above the
    /// highest.
    pub fn from_pgm(text: &str) -> Option<(Picture, u8)> {
        let without_comments = text
            .lines()
            .map(|line| line.split('#').next().unwrap_or(""));
        let text = without_comments.collect::<Vec<_>>().join("\n");
        let mut fields = text.split_ascii_whitespace();
        if fields.next() != Some("P2") {
            return None;
        }
        let mut sides = fields.by_ref().take(2).map(|field| field.parse().ok());
        let (width, height): (usize, usize) = (sides.next()??, sides.next()??);
        let highest: u8 = fields.next()?.parse().ok()?;
        let grays = fields.map(|field| field.parse::<u8>().ok());
        let cells: Option<Vec<u8>> = grays.map(|gray| highest.checked_sub(gray?)).collect();
        let cells = cells.filter(|cells| Some(cells.len()) == width.checked_mul(height))?;
        Some((
            Picture {
                width,
                height,
                cells,
            },
            highest.checked_add(1)?,
        ))
    }
}
