//! Sheets in plain Rust: a table is read field by field, or faster by rows, each compared as a whole with the expected row; a net is run over
//! the cells with its wires in one array. The readers only report whether a sheet is good, not what is wrong with a bad one. An open cell holds
//! the number of levels.

use reference::limits::cell_count;
use reference::sheet::Header;

/// The bytes that are left to read.
struct Rest<'a>(&'a [u8]);

impl<'a> Rest<'a> {
    fn word(&mut self, word: &[u8]) -> Option<()> {
        self.0 = self.0.strip_prefix(word)?;
        Some(())
    }

    /// Reads a field and the byte required after it.
    fn field(&mut self, after: u8) -> Option<&'a [u8]> {
        let ends = |&byte: &u8| byte == b' ' || byte == b'\n';
        let length = self.0.iter().position(ends)?;
        let (field, rest) = self.0.split_at(length);
        self.0 = rest;
        self.word(&[after])?;
        (!field.is_empty()).then_some(field)
    }

    fn header(&mut self, after_names: u8) -> Option<Header> {
        self.word(b"levels inputs\n")?;
        let m = decimal(self.field(b' ')?)?;
        let n = decimal(self.field(b'\n')?)?;
        cell_count(m as u64, n as u64)?;
        let mut names: Vec<Vec<u8>> = Vec::with_capacity(n);
        for input in 0..n {
            let after = if input + 1 < n { b' ' } else { after_names };
            let name = self.field(after)?;
            let good = name[0].is_ascii_lowercase()
                && name.len() <= 8
                && name
                    .iter()
                    .all(|b| b.is_ascii_lowercase() || b.is_ascii_digit());
            if !good || name == b"ink" || names.iter().any(|other| other == name) {
                return None;
            }
            names.push(name.to_vec());
        }
        Some(Header { m, n, names })
    }
}

/// Reads a number of at most two digits, without a needless zero.
fn decimal(field: &[u8]) -> Option<usize> {
    let digit = |byte: u8| byte.is_ascii_digit().then(|| usize::from(byte - b'0'));
    match *field {
        [one] => digit(one),
        [ten, one] if ten != b'0' => Some(digit(ten)? * 10 + digit(one)?),
        _ => None,
    }
}

/// Returns the header and inks of a table sheet, read field by field: each level must be the next in counting order.
pub fn read_table_by_fields(sheet: &[u8]) -> Option<(Header, Vec<u8>)> {
    let mut rest = Rest(sheet);
    let header = rest.header(b' ')?;
    rest.word(b"ink\n")?;
    let (m, n) = (header.m, header.n);
    let mut levels = vec![0; n];
    let cells = m.pow(n as u32);
    let mut inks = Vec::with_capacity(cells);
    for _ in 0..cells {
        for &level in &levels {
            if decimal(rest.field(b' ')?)? != level {
                return None;
            }
        }
        let ink = match rest.field(b'\n')? {
            b"-" => m,
            field => decimal(field).filter(|&ink| ink < m)?,
        };
        inks.push(ink as u8);
        for level in levels.iter_mut().rev() {
            *level += 1;
            if *level < m {
                break;
            }
            *level = 0;
        }
    }
    rest.0.is_empty().then_some((header, inks))
}

/// Does the same by whole rows.
pub fn read_table(sheet: &[u8]) -> Option<(Header, Vec<u8>)> {
    let mut rest = Rest(sheet);
    let header = rest.header(b' ')?;
    rest.word(b"ink\n")?;
    let (m, n) = (header.m, header.n);
    // the expected row: levels and spaces, then the ink and a line feed
    let mut due: Vec<u8> = b"0 ".repeat(n);
    let cells = m.pow(n as u32);
    if rest.0.len() != cells * (due.len() + 2) {
        return None;
    }
    let mut inks = Vec::with_capacity(cells);
    for row in rest.0.chunks_exact(due.len() + 2) {
        let (levels, end) = row.split_at(due.len());
        let ink = end[0].wrapping_sub(b'0');
        let open = end[0] == b'-';
        if levels != due || (usize::from(ink) >= m && !open) || end[1] != b'\n' {
            return None;
        }
        inks.push(if open { m as u8 } else { ink });
        for input in (0..n).rev() {
            due[2 * input] += 1;
            if usize::from(due[2 * input] - b'0') < m {
                break;
            }
            due[2 * input] = b'0';
        }
    }
    Some((header, inks))
}

/// A gate over wires: the inputs from 0, then the gates.
struct Gate {
    left: usize,
    right: usize,
    digits: Vec<u8>,
}

fn read_net(sheet: &[u8]) -> Option<(Header, Vec<Gate>)> {
    let mut rest = Rest(sheet);
    let header = rest.header(b'\n')?;
    rest.word(b"left right table\n")?;
    let mut used = vec![false; 2 * header.n];
    let mut gates: Vec<Gate> = Vec::with_capacity(header.n - 1);
    for number in 1..header.n {
        let mut wire = |field: &[u8]| {
            let input = header.names.iter().position(|name| name == field);
            let gate = || decimal(field).filter(|&gate| 0 < gate && gate < number);
            let wire = input.or_else(|| Some(header.n + gate()? - 1))?;
            (!std::mem::replace(&mut used[wire], true)).then_some(wire)
        };
        let left = wire(rest.field(b' ')?)?;
        let right = wire(rest.field(b' ')?)?;
        let digits: Vec<u8> = rest
            .field(b'\n')?
            .iter()
            .map(|b| b.wrapping_sub(b'0'))
            .collect();
        let below_m = |&digit: &u8| usize::from(digit) < header.m;
        if digits.len() != header.m * header.m || !digits.iter().all(below_m) {
            return None;
        }
        gates.push(Gate {
            left,
            right,
            digits,
        });
        if rest.0.is_empty() {
            break;
        }
    }
    let earlier_used = used[header.n..]
        .iter()
        .take(gates.len() - 1)
        .all(|&used| used);
    (rest.0.is_empty() && earlier_used).then_some((header, gates))
}

/// Returns, if both sheets are good and have the same header, where they first differ, if they do. The inks go to the front of the cells.
pub fn check(net: &[u8], table: &[u8], cells: &mut [u8]) -> Option<Option<usize>> {
    let (header, gates) = read_net(net)?;
    let (table_header, inks) = read_table(table)?;
    if header != table_header {
        return None;
    }
    cells.get_mut(..inks.len())?.copy_from_slice(&inks);
    let (m, n) = (header.m, header.n);
    let mut wires = vec![0u8; n + gates.len()];
    let output = wires.len() - 1;
    for (index, &ink) in inks.iter().enumerate() {
        for (k, gate) in gates.iter().enumerate() {
            let at = usize::from(wires[gate.left]) * m + usize::from(wires[gate.right]);
            wires[n + k] = gate.digits[at];
        }
        if wires[output] != ink && usize::from(ink) != m {
            return Some(Some(index));
        }
        for input in (0..n).rev() {
            wires[input] += 1;
            if usize::from(wires[input]) < m {
                break;
            }
            wires[input] = 0;
        }
    }
    Some(None)
}
