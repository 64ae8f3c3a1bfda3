//! Every page held to the tree, as the gate asks for it.

use crate::tree::Tree;
use crate::{architecture, edits, exceptions, held, links, promises};

type Check = fn(&Tree, &str) -> Vec<String>;

/// The pages whose tables are read, each with what is asked of it.
const CHECKS: [(&str, Check); 5] = [
    (promises::PAGE, promises::faults),
    (architecture::PAGE, architecture::faults),
    (exceptions::PAGE, exceptions::faults),
    (held::PAGE, held::faults),
    (edits::PAGE, edits::faults),
];

/// What is wrong with the pages, a line each; a page that is not there too.
pub fn faults(tree: &Tree) -> Vec<String> {
    let mut faults = Vec::new();
    for (page, check) in CHECKS {
        match tree.read(page) {
            Some(text) => faults.extend(check(tree, &text)),
            None => faults.push(format!("{page}: no page")),
        }
    }
    for page in tree.pages() {
        let text = tree.read(&page).unwrap_or_default();
        faults.extend(links::faults(tree, &page, &text));
    }
    faults
}
