//! docs/PROMISES.md: every name is in the tree, every edit is on the page.

use crate::columns;
use crate::names::Column::{self, MustFail, Run, Stated, Words};
use crate::table::{quoted, rows};
use crate::tree::Tree;

pub const PAGE: &str = "docs/PROMISES.md";

const HEADING: &str = "Sentence";
const COLUMNS: [Column; 4] = [Words, Stated, MustFail, Run];

/// What is wrong with the page's text, a line each.
pub fn faults(tree: &Tree, text: &str) -> Vec<String> {
    let rows = rows(text, HEADING);
    let mut faults = columns::faults(tree, PAGE, &rows, &COLUMNS);
    let named = |edit: &str| {
        let cells = rows.iter().filter_map(|row| row.cells.get(2));
        cells
            .filter_map(|cell| quoted(cell))
            .any(|names| names.contains(&edit))
    };
    for edit in tree.edits() {
        if !named(&edit) {
            faults.push(format!("{PAGE}: the edit `{edit}` is in no row"));
        }
    }
    faults
}
