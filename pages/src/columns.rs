//! Names in the tables of a page, column by column, held to the tree.

use crate::names::{self, parse, Column};
use crate::table::{quoted, Row};
use crate::tree::Tree;

/// What is wrong in these rows of a page, a line each.
pub fn faults(tree: &Tree, page: &str, rows: &[Row], columns: &[Column]) -> Vec<String> {
    let mut faults = Vec::new();
    for row in rows {
        let words = row_faults(tree, &row.cells, columns).into_iter();
        faults.extend(words.map(|words| format!("{page}:{}: {words}", row.line)));
    }
    faults
}

fn row_faults(tree: &Tree, cells: &[String], columns: &[Column]) -> Vec<String> {
    if cells.len() != columns.len() {
        return vec![format!("{} cells", cells.len())];
    }
    let cells = columns.iter().zip(cells);
    cells
        .flat_map(|(column, cell)| cell_faults(tree, *column, cell))
        .collect()
}

fn cell_faults(tree: &Tree, column: Column, cell: &str) -> Vec<String> {
    if cell.is_empty() {
        return vec!["an empty cell".to_string()];
    }
    let Some(names) = quoted(cell) else {
        return vec!["a backtick that is not closed".to_string()];
    };
    let needed = matches!(column, Column::Definition | Column::Function);
    if needed && names.is_empty() {
        return vec!["no name in backticks".to_string()];
    }
    let any = matches!(column, Column::Any);
    let stands = |name: &str| any || parse(column, name).is_some_and(|name| tree.has(&name));
    let missing = names.into_iter().filter(|name| !stands(name));
    missing.map(names::missing).collect()
}
