//! The parts as text.

use crate::parts::{Part, Table};

/// The widest of each column.
fn widths(table: &Table) -> Vec<usize> {
    let mut widths: Vec<_> = table.columns.iter().map(|column| column.name.len()).collect();
    for row in table.rows.iter().chain([&table.last]) {
        for (width, cell) in widths.iter_mut().zip(row) {
            *width = cell.len().max(*width);
        }
    }
    widths
}

fn row<'a>(table: &Table, widths: &[usize], cells: impl Iterator<Item = &'a str>) -> String {
    let mut line = String::new();
    for ((cell, &width), column) in cells.zip(widths).zip(&table.columns) {
        let cell = if column.place { format!("{cell:<width$}") } else { format!("{cell:>width$}") };
        line = format!("{line}  {cell}");
    }
    format!("  {}\n", line.trim_end())
}

fn table_written(table: &Table) -> String {
    let widths = widths(table);
    let mut text = String::new();
    if !table.caption.is_empty() {
        text += &format!("\n  {}\n", table.caption);
    }
    text += &row(table, &widths, table.columns.iter().map(|column| column.name));
    for cells in table.rows.iter().chain([&table.last]).filter(|cells| !cells.is_empty()) {
        text += &row(table, &widths, cells.iter().map(String::as_str));
    }
    if !table.below.is_empty() {
        text += &format!("    {}\n", table.below);
    }
    text
}

pub fn written(parts: &[Part]) -> String {
    let mut text = String::new();
    for part in parts {
        match part {
            Part::Title(title) => text += &format!("{title}\n"),
            Part::Heading(heading) => text += &format!("\n{heading}\n"),
            Part::Line(line) => text += &format!("  {line}\n"),
            Part::Table(table) => text += &table_written(table),
            Part::Picture { .. } => {}
        }
    }
    text
}
