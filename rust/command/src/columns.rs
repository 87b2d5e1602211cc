//! Text in columns that line up.

/// What stands in a row, column by column.
pub type Row = Vec<String>;

/// Rows as lines: the first column to the left, the others to the right, three spaces between.
pub fn lined_up(rows: &[Row]) -> String {
    let columns = rows.iter().map(Vec::len).max().unwrap_or(0);
    let width = |column: usize| rows.iter().filter_map(|row| row.get(column)).map(String::len).max().unwrap_or(0);
    let widths: Vec<usize> = (0..columns).map(width).collect();
    let line = |row: &Row| {
        let items = row.iter().zip(&widths).enumerate().map(|(column, (item, &width))| match column {
            0 => format!("{item:<width$}"),
            _ => format!("   {item:>width$}"),
        });
        items.collect::<String>().trim_end().to_string() + "\n"
    };
    rows.iter().map(line).collect()
}
