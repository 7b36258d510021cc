//! Columns for people.
#![forbid(unsafe_code)]

/// Rows of cells with two spaces between them. The first `numbers` columns stand at the right, each as wide as its widest cell; what follows
/// begins at the left and is as long as it is.
pub(crate) fn table<const COLUMNS: usize>(rows: &[[String; COLUMNS]], numbers: usize) -> String {
    let width = |column: usize| rows.iter().map(|row| row[column].len()).max().unwrap_or(0);
    let widths: Vec<usize> = (0..numbers).map(width).collect();
    let mut text = String::new();
    for row in rows {
        let numbers = row.iter().zip(&widths);
        let mut cells: Vec<String> = numbers
            .map(|(cell, &width)| format!("{cell:>width$}"))
            .collect();
        cells.extend_from_slice(&row[widths.len()..]);
        text.push_str(cells.join("  ").trim_end());
        text.push('\n');
    }
    text
}

#[cfg(test)]
mod tests {
    use super::*;

    #[test]
    fn columns() {
        let row = |cells: [&str; 3]| cells.map(String::from);
        let rows = [row(["rank", "cost", "labels"]), row(["1", "-1.015625", ""])];
        assert_eq!(
            table(&rows, 2),
            "rank       cost  labels\n   1  -1.015625\n"
        );
        assert_eq!(table(&rows, 1), "rank  cost  labels\n   1  -1.015625\n");
    }
}
