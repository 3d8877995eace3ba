//! The same rule with more levels.

use sitgurp::{Refusal, Table};

/// Returns the table of the same rule with more levels: an input above the old levels acts as the old highest. Refuses with 3 if it is too large.
///
/// ```
/// let majority = |levels: &[u8]| u8::from(levels.iter().sum::<u8>() >= 2);
/// let table = sitgurp::Table::from_rule(2, &["a", "b", "c"], majority)?;
/// let wide = search::widened(&table, table.fewest_levels()?)?;
/// assert_eq!((wide.levels(), wide.ink(&[2, 0, 1])), (3, Some(1)));
/// assert!(wide.settled().is_ok());
/// # Ok::<(), sitgurp::Refusal>(())
/// ```
pub fn widened(table: &Table, levels: usize) -> Result<Table, Refusal> {
    let highest = table.levels() as u8 - 1;
    Table::from_rule(levels, table.names(), |row| {
        let row: Vec<u8> = row.iter().map(|&level| level.min(highest)).collect();
        let ink = table.ink(&row).expect("levels of the table");
        // an open cell stays open
        if ink > highest {
            levels as u8
        } else {
            ink
        }
    })
}
