//! A table as plain text or as Markdown.

/// The first columns hold words, the others numbers.
const WORDS: usize = 2;

#[derive(Clone, Copy)]
pub enum Layout {
    Text,
    Markdown,
}

pub struct Table<const COLUMNS: usize> {
    rows: Vec<[String; COLUMNS]>,
}

impl<const COLUMNS: usize> Table<COLUMNS> {
    pub fn new(heads: [&str; COLUMNS]) -> Table<COLUMNS> {
        Table {
            rows: vec![heads.map(str::to_string)],
        }
    }

    pub fn push(&mut self, row: [String; COLUMNS]) {
        self.rows.push(row);
    }

    pub fn laid_out(&self, layout: Layout) -> String {
        let mut widths = [0; COLUMNS];
        for row in &self.rows {
            for (width, cell) in widths.iter_mut().zip(row) {
                *width = cell.chars().count().max(*width);
            }
        }
        let mut text = String::new();
        for (place, row) in self.rows.iter().enumerate() {
            let cells = padded(row, &widths);
            match layout {
                Layout::Text => text += cells.join("  ").trim_end(),
                Layout::Markdown => text += &format!("| {} |", cells.join(" | ")),
            }
            text += "\n";
            if let (Layout::Markdown, 0) = (layout, place) {
                text += &ruler(&widths);
            }
        }
        text
    }
}

/// Cells as wide as their columns: words to the left, numbers to the right.
fn padded(row: &[String], widths: &[usize]) -> Vec<String> {
    let cells = row.iter().zip(widths).enumerate();
    cells
        .map(|(column, (cell, &width))| match column < WORDS {
            true => format!("{cell:width$}"),
            false => format!("{cell:>width$}"),
        })
        .collect()
}

/// The line below a Markdown table's heads.
fn ruler(widths: &[usize]) -> String {
    let dashes = |(column, &width): (usize, &usize)| match column < WORDS {
        true => "-".repeat(width + 2),
        false => "-".repeat(width + 1) + ":",
    };
    let lines: Vec<String> = widths.iter().enumerate().map(dashes).collect();
    format!("|{}|\n", lines.join("|"))
}
