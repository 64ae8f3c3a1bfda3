//! Seeded faults of docs/EDITS.md, in a small tree.

mod made;

use made::{Made, Page};
use pages::{checked, edits};

const FILES: [(&str, &str); 3] = [
    ("crates/one/must-fail/early.edit", ""),
    ("crates/two/must-fail/early.edit", ""),
    ("crates/two/must-fail/late.edit", ""),
];

const PAGE: &str = "\
| Edit | What it does | Which fact fails |
|---|---|---|
| `one/early` | takes `a <= b` for `a < b` | the bound, at its `end` |
| `two/early` | stops | the sum |

| Edit | What it does | Which fact fails |
|---|---|---|
| `two/late` | goes on | what `run the whole file` gives, one two three, four five |
";

const SMALL: Page = Page {
    files: &FILES,
    text: PAGE,
    check: edits::faults,
};

#[test]
fn a_right_page_has_no_fault() {
    SMALL.gives(PAGE, &[]);
}

#[test]
fn no_page_is_told() {
    let faults = checked::faults(&Made::new(&FILES).tree);
    assert!(faults.contains(&"docs/EDITS.md: no page".to_string()));
}

#[test]
fn an_edit_that_is_not_there_is_told() {
    let expected = [
        "docs/EDITS.md:8: `one/late` is not in the tree",
        "docs/EDITS.md: the edit `two/late` is in no row",
    ];
    SMALL.told("`two/late`", "`one/late`", &expected);
}

#[test]
fn an_edit_in_no_row_is_told() {
    let expected = ["docs/EDITS.md: the edit `two/early` is in no row"];
    SMALL.told("| `two/early` | stops | the sum |\n", "", &expected);
}

#[test]
fn an_edit_with_two_rows_is_told() {
    let row = "| `two/late` | goes on | the end |\n";
    let expected = ["docs/EDITS.md:9: the edit `two/late` has a row already"];
    SMALL.gives(&format!("{PAGE}{row}"), &expected);
}

#[test]
fn a_row_has_one_edit() {
    let expected = [
        "docs/EDITS.md:4: not one edit in backticks",
        "docs/EDITS.md: the edit `two/early` is in no row",
    ];
    SMALL.told("`two/early`", "`two/early`, `two/late`", &expected);
    SMALL.told("`two/early`", "two/early", &expected);
}

#[test]
fn an_empty_cell_is_told() {
    for full in ["| stops |", "| the sum |"] {
        SMALL.told(full, "| |", &["docs/EDITS.md:4: an empty cell"]);
    }
    SMALL.told("| the sum |", "|", &["docs/EDITS.md:4: 2 cells"]);
}

#[test]
fn a_ninth_word_is_told() {
    for last in ["five six", "five: `six seven`"] {
        let expected = ["docs/EDITS.md:8: 9 words, and 8 are the most"];
        SMALL.told("five", last, &expected);
    }
}
