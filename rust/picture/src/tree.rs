//! A net as it is drawn: its output's wire, and the digits of a gate's table by row and column.

use sitgurp::{Net, Wire};

/// Returns the output's wire.
pub fn root(net: &Net) -> Wire {
    Wire::Gate(net.gates().len() - 1)
}

/// Returns the digit of a gate when left has the level `row` and right the level `column`.
///
/// # Panics
///
/// If the net has no such gate, or its table no such digit.
pub fn digit(net: &Net, gate: usize, row: usize, column: usize) -> u8 {
    net.gates()[gate].digits[row * net.levels() + column]
}
