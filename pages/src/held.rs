//! docs/HELD.md: every definition of the model is there, with what becomes
//! false where it is changed, and so is every edit of the model.

use crate::columns;
use crate::names::Column::{self, Any, Definition, ModelEdit, Promise};
use crate::names::{self, parse};
use crate::table::{quoted, rows, Row};
use crate::tree::Tree;

pub const PAGE: &str = "docs/HELD.md";

const HEADING: &str = "Definition";
const COLUMNS: [Column; 4] = [Definition, Any, Promise, Any];

/// What is wrong with the page's text, a line each.
pub fn faults(tree: &Tree, text: &str) -> Vec<String> {
    let rows = rows(text, HEADING);
    let mut faults = columns::faults(tree, PAGE, &rows, &COLUMNS);
    for row in &rows {
        let words = row.cells.get(3).map(|cell| edit_faults(tree, cell));
        let words = words.into_iter().flatten();
        faults.extend(words.map(|words| format!("{PAGE}:{}: {words}", row.line)));
    }
    let definitions = named(&rows, 0);
    faults.extend(left_out("definition", tree.definitions(), &definitions));
    let edits = named(&rows, 3);
    faults.extend(left_out("edit", tree.model_edits(), &edits));
    faults
}

/// What is wrong with a cell of edits of the tree, or of a reason why there is none.
fn edit_faults(tree: &Tree, cell: &str) -> Vec<String> {
    let reason = reason(cell);
    let names = quoted(cell).unwrap_or_default();
    let silent = names.is_empty() && !cell.is_empty();
    if reason.map_or(silent, str::is_empty) {
        return vec!["neither an edit nor `none:` with a reason".to_string()];
    }
    let stands = |name: &str| match parse(ModelEdit, name) {
        Some(edit) => tree.has(&edit),
        None => reason.is_some(),
    };
    let missing = names.into_iter().filter(|name| !stands(name));
    missing.map(names::missing).collect()
}

/// Why a cell has no edit.
fn reason(cell: &str) -> Option<&str> {
    cell.strip_prefix("none:").map(str::trim)
}

/// The names of a column; an edit that a reason speaks of has no row by that.
fn named(rows: &[Row], column: usize) -> Vec<&str> {
    let cells = rows.iter().filter_map(|row| row.cells.get(column));
    let cells = cells.filter(|cell| reason(cell).is_none());
    cells.filter_map(|cell| quoted(cell)).flatten().collect()
}

/// A fault for each name of the tree that is in no row.
fn left_out(kind: &str, names: Vec<String>, told: &[&str]) -> Vec<String> {
    let missing = names.iter().filter(|name| !told.contains(&name.as_str()));
    missing
        .map(|name| format!("{PAGE}: the {kind} `{name}` is in no row"))
        .collect()
}
