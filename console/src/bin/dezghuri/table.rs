//! Tables in plain text.

/// Which side the cells of a column stand at.
#[derive(Clone, Copy, PartialEq, Eq)]
pub enum Side {
    Left,
    Right,
}

/// One column: its head, then a cell for each row.
pub struct Column {
    pub side: Side,
    pub cells: Vec<String>,
}

impl Column {
    pub fn new(side: Side, head: &str, cells: impl IntoIterator<Item = String>) -> Column {
        let mut column = Column {
            side,
            cells: vec![head.into()],
        };
        column.cells.extend(cells);
        column
    }

    /// Whether no row has anything in this column.
    pub fn is_blank(&self) -> bool {
        self.cells.iter().skip(1).all(String::is_empty)
    }

    fn width(&self) -> usize {
        let widths = self.cells.iter().map(|cell| cell.chars().count());
        widths.max().unwrap_or(0)
    }
}

/// The lines of a table, each column as wide as its widest cell.
pub fn text(columns: &[Column]) -> String {
    let rows = columns.iter().map(|column| column.cells.len()).min();
    let mut text = String::new();
    for row in 0..rows.unwrap_or(0) {
        let mut line = String::new();
        for column in columns {
            let (cell, width) = (&column.cells[row], column.width());
            line += "  ";
            line += &match column.side {
                Side::Left => format!("{cell:<width$}"),
                Side::Right => format!("{cell:>width$}"),
            };
        }
        text += line.trim_end();
        text += "\n";
    }
    text
}

#[cfg(test)]
mod tests {
    use super::*;

    #[test]
    fn columns_are_as_wide_as_their_widest_cell() {
        let column =
            |side, head, cells: [&str; 2]| Column::new(side, head, cells.map(String::from));
        let columns = [
            column(Side::Right, "box", ["1", "1000"]),
            column(Side::Left, "name", ["Büro", ""]),
            column(Side::Right, "n", ["10", ""]),
        ];
        assert_eq!(
            text(&columns),
            "   box  name   n\n     1  Büro  10\n  1000\n"
        );
        assert!(!columns[1].is_blank());
        assert!(column(Side::Left, "name", ["", ""]).is_blank());
    }
}
