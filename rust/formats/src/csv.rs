//! A table as comma-separated values.

use sitgurp::Table;

/// Returns a table as CSV: the sheet with a comma between fields, which `tidy --csv` reads back.
///
/// ```
/// let table = sitgurp::Table::from_rule(2, &["day", "near"], |levels| levels[0] & levels[1])?;
/// assert_eq!(formats::csv(&table), "levels,inputs\n2,2\nday,near,ink\n0,0,0\n0,1,0\n1,0,0\n1,1,1\n");
/// # Ok::<(), sitgurp::Refusal>(())
/// ```
pub fn csv(table: &Table) -> String {
    table.as_str().replace(' ', ",")
}
