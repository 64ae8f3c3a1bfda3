//! Relative links of the pages: each leads to something that is there.

use std::path::Path;

use crate::tree::Tree;

/// The targets of a line's links; code in backticks is not read as a link.
fn targets(line: &str) -> Vec<String> {
    let plain: String = line.split('`').step_by(2).collect::<Vec<_>>().join(" ");
    let ends = plain.split("](").skip(1);
    ends.filter_map(|rest| rest.split_once(')'))
        .map(|(target, _)| target.to_string())
        .collect()
}

/// What is wrong with the links of a page, a line each.
pub fn faults(tree: &Tree, page: &str, text: &str) -> Vec<String> {
    let folder = Path::new(page).parent().unwrap_or(Path::new(""));
    let mut faults = Vec::new();
    let mut fenced = false;
    for (at, line) in text.lines().enumerate() {
        fenced ^= line.starts_with("```");
        if fenced || line.starts_with("    ") {
            continue;
        }
        for target in targets(line) {
            let path = target.split('#').next().unwrap_or_default();
            let elsewhere = target.contains("://") || path.is_empty();
            if !elsewhere && !tree.root.join(folder).join(path).exists() {
                faults.push(format!("{page}:{}: no {target}", at + 1));
            }
        }
    }
    faults
}
