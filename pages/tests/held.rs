//! Seeded faults of docs/HELD.md, in a small tree.

mod made;

use made::{Made, Page};
use pages::{checked, held};

const STATE: &str = "\
-- what is kept
use Rattle.std.specs.Prelude.{ℕ}

abbrev pub end : ℕ → ℕ
end x = x

abbrev inner : ℕ → ℕ
inner x = x

pub record Net : Type 0 where
  pub nodes : ℕ

pub data Kind : Type 0 where
  send : Kind
";

const PROMISES: &str = "\
unfoldable pub Ends : Type 0
Ends = ⊥

pub record Kept : Type 0 where
  pub same : Type 0
";

const FILES: [(&str, &str); 7] = [
    ("crates/model/specs/Lib.antt", "pub mod State\n"),
    ("crates/model/specs/State.antt", STATE),
    ("crates/model/specs/Promises.antt", PROMISES),
    (
        "crates/model/specs/Cases.antt",
        "    -- P1 one node\n    -- P12\n",
    ),
    ("crates/model/must-fail/late.edit", ""),
    ("crates/model/held/early.edit", ""),
    ("crates/other/must-fail/more.edit", ""),
];

const PAGE: &str = "\
| Definition | Changed so | Becomes false | Edit |
|---|---|---|---|
| `State.end` | `x + 1` for `x` | `row P1`, `Promises.Kept.same` at 0 | `model/late` |
| `State.Net`, `State.Net.nodes` | one more | `Promises.Ends` | `held/early`, `model/late` |

| Definition | Changed so | Becomes false | Edit |
|---|---|---|---|
| `State.Kind` | a case less | every row | none: `send` is named in each |
| `Promises.Ends`, `Promises.Kept` | as you like | itself | none: it is what is held |
";

const SMALL: Page = Page {
    files: &FILES,
    text: PAGE,
    check: held::faults,
};

#[test]
fn a_right_page_has_no_fault() {
    SMALL.gives(PAGE, &[]);
}

#[test]
fn no_page_is_told() {
    let faults = checked::faults(&Made::new(&FILES).tree);
    assert!(faults.contains(&"docs/HELD.md: no page".to_string()));
}

#[test]
fn a_definition_that_is_not_there_is_told() {
    for wrong in ["State.ends", "State.send", "model/State.end", "State::end"] {
        let fault = format!("docs/HELD.md:3: `{wrong}` is not in the tree");
        SMALL.told("`State.end`", &format!("`State.end`, `{wrong}`"), &[&fault]);
    }
}

#[test]
fn a_definition_in_no_row_is_told() {
    let expected = ["docs/HELD.md: the definition `State.Net` is in no row"];
    SMALL.told("`State.Net`, ", "", &expected);
    let expected = ["docs/HELD.md: the definition `Promises.Kept` is in no row"];
    SMALL.told(", `Promises.Kept`", "", &expected);
    let expected = [
        "docs/HELD.md:8: no name in backticks",
        "docs/HELD.md: the definition `State.Kind` is in no row",
    ];
    SMALL.told("`State.Kind`", "State.Kind", &expected);
}

#[test]
fn what_becomes_false_is_there() {
    for wrong in ["row P2", "row P", "Promises.Kept.other", "State.end"] {
        let fault = format!("docs/HELD.md:3: `{wrong}` is not in the tree");
        SMALL.told("`row P1`", &format!("`{wrong}`"), &[&fault]);
    }
}

#[test]
fn an_edit_that_is_not_there_is_told() {
    for wrong in ["held/late", "model/early", "other/more", "late"] {
        let fault = format!("docs/HELD.md:3: `{wrong}` is not in the tree");
        SMALL.told("| `model/late` |", &format!("| `{wrong}` |"), &[&fault]);
    }
    let expected = ["docs/HELD.md:8: `held/gone` is not in the tree"];
    SMALL.told("none: `send`", "none: `held/gone`", &expected);
}

#[test]
fn an_edit_in_no_row_is_told() {
    let expected = ["docs/HELD.md: the edit `held/early` is in no row"];
    SMALL.told("`held/early`, ", "", &expected);
    SMALL.told("| `held/early`,", "| none: `held/early`,", &expected);
}

#[test]
fn an_edit_or_a_reason_is_asked_for() {
    let expected = ["docs/HELD.md:9: neither an edit nor `none:` with a reason"];
    SMALL.told("none: it is what is held", "none:", &expected);
    SMALL.told("none: it is", "it is", &expected);
}

#[test]
fn an_empty_cell_is_told() {
    for full in [
        "| as you like |",
        "| itself |",
        "| none: it is what is held |",
    ] {
        SMALL.told(full, "| |", &["docs/HELD.md:9: an empty cell"]);
    }
    SMALL.told("| itself |", "|", &["docs/HELD.md:9: 3 cells"]);
}
