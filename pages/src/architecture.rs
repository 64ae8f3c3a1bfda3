//! docs/ARCHITECTURE.md: its steps are in the tree, its crates are all of them.

use crate::columns;
use crate::names::Column::{self, Stated, Words};
use crate::table::rows;
use crate::tree::Tree;

pub const PAGE: &str = "docs/ARCHITECTURE.md";

const COLUMNS: [Column; 4] = [Stated, Stated, Stated, Words];

/// What is wrong with the page's text, a line each.
pub fn faults(tree: &Tree, text: &str) -> Vec<String> {
    let mut faults = columns::faults(tree, PAGE, &rows(text, "Step"), &COLUMNS);
    let rows = rows(text, "In crates/");
    let told: Vec<&str> = rows
        .iter()
        .flat_map(|row| row.cells[0].split(", "))
        .collect();
    let crates = tree.crates();
    for name in &crates {
        if !told.contains(&name.as_str()) {
            faults.push(format!("{PAGE}: the crate {name} is in no row"));
        }
    }
    for name in told {
        if !crates.iter().any(|known| known == name) {
            faults.push(format!("{PAGE}: {name} is no crate"));
        }
    }
    faults
}
