//! Seeded faults of the tables of functions of docs/EXCEPTIONS.md, in a small
//! tree.

mod made;

use made::Page;
use pages::exceptions;

const LIB: &str = "\
#![tactic(auto)]

pub struct Net {
    links: u8,
}

impl Net {
    pub fn sent(self) -> u8
        ensures { result ≡ 0 }
    {
        0
    }
}

fn inner() -> u8 {
    0
}
";

const WALK: &str = "\
pub fn way(x: u8) -> u8
    requires { x < 9 }
    ensures same { result ≡ x }
{
    x
}
";

const FILES: [(&str, &str); 3] = [
    ("crates.txt", "# crates\none staticlib: low # the first\n"),
    ("crates/one/src/lib.rt", LIB),
    ("crates/one/src/walk.rt", WALK),
];

const PAGE: &str = "\
| Function | What it requires |
|---|---|
| `one::way` | a small number |

Words.

| Function | What it leaves open | Why |
|---|---|---|
| `one::sent`, `one::Net::sent` | entries past `links` | they are no part of it |
| `one::way` | nothing else | so |
";

const SMALL: Page = Page {
    files: &FILES,
    text: PAGE,
    check: exceptions::faults,
};

#[test]
fn a_right_page_has_no_fault() {
    SMALL.told("Words.", "Other words.", &[]);
}

#[test]
fn the_tables_are_told_apart() {
    let requires = ["docs/EXCEPTIONS.md: `one::way` requires something"];
    SMALL.told("| `one::way` | a small number |\n", "", &requires);
    let nothing = ["docs/EXCEPTIONS.md: `one::sent` requires nothing"];
    SMALL.told("| `one::way` |", "| `one::way`, `one::sent` |", &nothing);
}

#[test]
fn a_function_that_is_not_there_is_told() {
    for wrong in [
        "one::inner",
        "one::Net",
        "one::send",
        "two::sent",
        "one::Way::sent",
        "sent",
    ] {
        let fault = format!("docs/EXCEPTIONS.md:9: `{wrong}` is not in the tree");
        SMALL.told("`one::sent`", &format!("`{wrong}`"), &[&fault]);
    }
}

#[test]
fn an_empty_cell_is_told() {
    for full in ["| nothing else |", "| so |"] {
        SMALL.told(full, "| |", &["docs/EXCEPTIONS.md:10: an empty cell"]);
    }
    let bare = ["docs/EXCEPTIONS.md:10: no name in backticks"];
    SMALL.told("`one::way` | nothing else", "way | nothing else", &bare);
}
