//! docs/EDITS.md: every must-fail edit has one row, which says in few words
//! which fact fails.

use crate::columns;
use crate::names::Column::{self, Any, MustFail};
use crate::table::{only_quoted, rows, word_count};
use crate::tree::Tree;

pub const PAGE: &str = "docs/EDITS.md";

const HEADING: &str = "Edit";
const COLUMNS: [Column; 3] = [MustFail, Any, Any];
const WORDS_MOST: usize = 8;

/// What is wrong with the page's text, a line each.
pub fn faults(tree: &Tree, text: &str) -> Vec<String> {
    let rows = rows(text, HEADING);
    let mut faults = columns::faults(tree, PAGE, &rows, &COLUMNS);
    let mut told: Vec<&str> = Vec::new();
    for row in &rows {
        let edit = only_quoted(&row.cells[0]);
        let words = row_faults(&row.cells, edit, &told).into_iter();
        faults.extend(words.map(|words| format!("{PAGE}:{}: {words}", row.line)));
        told.extend(edit);
    }
    let edits = tree.edits().into_iter();
    let left_out = edits.filter(|edit| !told.contains(&edit.as_str()));
    faults.extend(left_out.map(|edit| format!("{PAGE}: the edit `{edit}` is in no row")));
    faults
}

/// What is wrong with a row, given the edits of the rows above it.
fn row_faults(cells: &[String], edit: Option<&str>, told: &[&str]) -> Vec<String> {
    let mut faults = Vec::new();
    match edit {
        None if cells[0].is_empty() => {}
        None => faults.push("not one edit in backticks".to_string()),
        Some(edit) if told.contains(&edit) => {
            faults.push(format!("the edit `{edit}` has a row already"))
        }
        Some(_) => {}
    }
    let count = cells.get(2).map_or(0, |cell| word_count(cell));
    if count > WORDS_MOST {
        faults.push(format!("{count} words, and {WORDS_MOST} are the most"));
    }
    faults
}
