//! docs/EXCEPTIONS.md: the public functions that require something are those
//! listed there, and none has a contract that is silent. Those that leave
//! something open are in the tree.

use crate::code::contracts;
use crate::columns;
use crate::names::Column::{self, Any, Function};
use crate::table::{quoted, tables, Row, Table};
use crate::tree::Tree;

pub const PAGE: &str = "docs/EXCEPTIONS.md";

const HEADING: &str = "Function";
const REQUIRES: &str = "What it requires";
const COLUMNS: [Column; 3] = [Function, Any, Any];

/// What is wrong with the page's text, a line each.
pub fn faults(tree: &Tree, text: &str) -> Vec<String> {
    let tables = tables(text, HEADING).into_iter();
    let requires = |table: &Table| table.heading.get(1).is_some_and(|cell| cell == REQUIRES);
    let (requiring, open): (Vec<Table>, Vec<Table>) = tables.partition(requires);
    let mut faults = requiring_faults(tree, &rows_of(requiring));
    faults.extend(columns::faults(tree, PAGE, &rows_of(open), &COLUMNS));
    faults
}

/// The rows of tables, in order.
fn rows_of(tables: Vec<Table>) -> Vec<Row> {
    tables.into_iter().flat_map(|table| table.rows).collect()
}

/// What is wrong with the rows of functions that require something.
fn requiring_faults(tree: &Tree, rows: &[Row]) -> Vec<String> {
    let cells = rows.iter().filter_map(|row| quoted(&row.cells[0]));
    let mut listed: Vec<&str> = cells.flatten().collect();
    let mut faults = Vec::new();
    for (owner, source) in tree.sources() {
        for contract in contracts(&source) {
            let name = format!("{owner}::{}", contract.name);
            let known = listed.iter().position(|listed| *listed == name);
            match known {
                Some(at) if contract.requires => drop(listed.remove(at)),
                None if contract.requires => {
                    faults.push(format!("{PAGE}: `{name}` requires something"))
                }
                _ => {}
            }
            if !contract.ensures {
                faults.push(format!("{PAGE}: the contract of `{name}` is silent"));
            }
        }
    }
    let idle = listed.iter();
    faults.extend(idle.map(|name| format!("{PAGE}: `{name}` requires nothing")));
    faults
}
