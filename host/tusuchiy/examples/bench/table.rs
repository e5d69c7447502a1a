//! Tables in Markdown that read well as they stand.

/// A table: its columns' heads, and how wide each is at least.
pub struct Table(pub &'static [(&'static str, usize)]);

impl Table {
    /// Prints the heads and the line under them.
    pub fn head(&self) {
        self.row(self.0.iter().map(|column| column.0.to_string()));
        self.row(self.0.iter().map(|column| "-".repeat(width(column))));
    }

    /// Prints one row: the first cell stands to the left, numbers to the right.
    pub fn row(&self, cells: impl Iterator<Item = String>) {
        for (place, (cell, column)) in cells.zip(self.0).enumerate() {
            let width = width(column);
            match place {
                0 => print!("| {cell:<width$} |"),
                _ => print!(" {cell:>width$} |"),
            }
        }
        println!();
    }
}

fn width(column: &(&str, usize)) -> usize {
    column.1.max(column.0.len())
}
