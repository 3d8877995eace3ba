//! How far many sheets, or a large table, have come, on a terminal.

use crate::output::to_error;
use std::io::{self, IsTerminal};

const WIDTH: usize = 30;

/// A bar on standard error, where that is a terminal; nothing otherwise.
pub struct Progress {
    total: usize,
    shown: bool,
}

impl Progress {
    pub fn of(total: usize) -> Progress {
        Progress {
            total,
            shown: io::stderr().is_terminal(),
        }
    }

    pub fn is_shown(&self) -> bool {
        self.shown
    }

    pub fn at(&self, done: usize) {
        if self.shown {
            to_error(&format!("\r{}", bar(done, self.total)));
        }
    }

    /// Takes the bar away.
    pub fn end(&self) {
        if self.shown {
            let width = bar(self.total, self.total).len();
            to_error(&format!("\r{}\r", " ".repeat(width)));
        }
    }
}

/// `[##########....................] 4 of 12`.
fn bar(done: usize, total: usize) -> String {
    let full = WIDTH * done / total.max(1);
    format!(
        "[{}{}] {done} of {total}",
        "#".repeat(full),
        ".".repeat(WIDTH - full)
    )
}

#[cfg(test)]
mod tests {
    use super::bar;

    #[test]
    fn the_bar_fills() {
        assert_eq!(bar(0, 12), "[..............................] 0 of 12");
        assert_eq!(bar(4, 12), "[##########....................] 4 of 12");
        assert_eq!(bar(12, 12), "[##############################] 12 of 12");
    }
}
