//! Seeded faults: a wrong name, an edit left out, a broken link.

use std::path::Path;

use pages::code::{contracts, handed_on};
use pages::names::{parse, Column};
use pages::tree::Tree;
use pages::{architecture, exceptions, links, promises};

fn tree() -> Tree {
    Tree::new(Path::new(concat!(env!("CARGO_MANIFEST_DIR"), "/..")))
}

fn page() -> String {
    tree().read(promises::PAGE).expect("the page")
}

fn has(column: Column, name: &str) -> bool {
    parse(column, name).is_some_and(|name| tree().has(&name))
}

#[test]
fn the_page_has_no_fault() {
    assert_eq!(promises::faults(&tree(), &page()), Vec::<String>::new());
}

/// A right name, and a wrong one that a search for a part of it would take.
const STATED: [(&str, &str); 11] = [
    ("Send.send_to", "Send.send"),
    ("Send.send_to", "Lose.send_to"),
    ("Below.tab", "Below.n"),
    ("State.Ends.out", "State.Ends.turns"),
    ("History.History.next", "History.History.e"),
    (
        "network/Calls.CallPost.outcome",
        "network/Calls.CallPost.made",
    ),
    (
        "replay/proofs/OneOutcome.text_one",
        "replay/OneOutcome.text_one",
    ),
    ("network::open", "network::opening"),
    ("network::Network", "network::SLOTS"),
    ("network::Network::send", "network::Network::sent"),
    ("model::limits::NODES", "model::limits::NODE"),
];
const MUST_FAIL: [(&str, &str); 2] = [
    ("queues/newest_taken", "model/newest_taken"),
    ("model/newest_lost", "newest_lost"),
];
const RUN: [(&str, &str); 8] = [
    ("row P1", "row P13"),
    ("row a bounce", "row bounce"),
    ("row D1's whole text", "row D"),
    ("drill p12-d1", "drill p12"),
    ("drill p12-d1", "p12-d1"),
    ("calls records", "calls record"),
    ("test second/document d1_whole", "test second/document full"),
    ("wrong turn-all", "wrong turn"),
];

#[test]
fn a_name_is_taken_whole() {
    let stated = STATED.map(|pair| (Column::Stated, pair));
    let must_fail = MUST_FAIL.map(|pair| (Column::MustFail, pair));
    let run = RUN.map(|pair| (Column::Run, pair));
    for (column, (right, wrong)) in stated.into_iter().chain(must_fail).chain(run) {
        assert!(has(column, right), "{right}");
        assert!(!has(column, wrong), "{wrong}");
    }
}

#[test]
fn every_public_declaration_can_be_named() {
    let definitions = tree().definitions();
    for name in ["State.end", "State.Net", "Formed.sized", "Events.Event"] {
        assert!(definitions.iter().any(|found| found == name), "{name}");
    }
    for name in &definitions {
        assert!(has(Column::Definition, name), "{name}");
    }
}

#[test]
fn a_wrong_name_is_told_with_its_line() {
    let page = page();
    let line = 1 + page
        .lines()
        .position(|line| line.contains("`Lose.lose_on`"))
        .expect("a row");
    let page = page.replace("`Lose.lose_on`", "`Lose.lose_off`");
    let told = format!(
        "{}:{line}: `Lose.lose_off` is not in the tree",
        promises::PAGE
    );
    assert_eq!(promises::faults(&tree(), &page), [told]);
}

#[test]
fn an_edit_in_no_row_is_told() {
    let page = page().replace("`pairs/ring_missed`", "");
    let faults = promises::faults(&tree(), &page);
    assert!(faults
        .iter()
        .any(|fault| fault.ends_with("the edit `pairs/ring_missed` is in no row")));
}

#[test]
fn an_empty_cell_is_told() {
    let page = "| Sentence | Stated | Must fail | Run |\n|---|---|---|---|\n| a | `Send.send_to` | | none: so |\n";
    let faults = promises::faults(&tree(), page);
    assert!(faults[0].ends_with(":3: an empty cell"), "{faults:?}");
}

#[test]
fn the_steps_and_crates_are_those_of_the_tree() {
    let page = tree().read(architecture::PAGE).expect("the page");
    let faults = |page: &str| architecture::faults(&tree(), page);
    assert_eq!(faults(&page), Vec::<String>::new());
    assert_eq!(
        faults(&page.replace("`steps::step`", "`steps::steps`")).len(),
        1
    );
    let renamed = page.replace("| turning | ", "| walks | ");
    assert_eq!(
        faults(&renamed),
        [
            "docs/ARCHITECTURE.md: the crate turning is in no row",
            "docs/ARCHITECTURE.md: walks is no crate"
        ]
    );
}

#[test]
fn the_exceptions_are_those_of_the_code() {
    let page = tree().read(exceptions::PAGE).expect("the page");
    let faults = |page: &str| exceptions::faults(&tree(), page);
    assert_eq!(faults(&page), Vec::<String>::new());
    assert_eq!(
        faults(&page.replace("`arrays::other`", "`arrays::none`")),
        [
            "docs/EXCEPTIONS.md: `arrays::other` requires something",
            "docs/EXCEPTIONS.md: `arrays::none` requires nothing"
        ]
    );
}

#[test]
fn a_clause_belongs_to_its_function() {
    let code = "pub fn a(\n    x: u8,\n) -> u8\n    ensures { result ≡ x }\n{\n    x\n}\n\n\
                pub fn b() {\n}\n\nfn c()\n    requires { p }\n{\n}\n";
    let expected = [("a", false, true), ("b", false, false)];
    assert_eq!(told(code), expected);
}

/// What is found of the contracts of a text.
fn told(code: &str) -> Vec<(&str, bool, bool)> {
    let contracts = contracts(code).into_iter();
    contracts.map(|c| (c.name, c.requires, c.ensures)).collect()
}

#[test]
fn a_clause_may_have_a_name_and_many_lines() {
    let code = "pub fn a<'a>(x: &'a mut u8) -> bool\n    requires small { x.old < 9 }\n    \
                ensures told {\n        OnOk { x }\n    }\n    ensures* kept { x.new ≡ x.old }\n{\n    true\n}\n\n\
                pub extern \"C\" fn b() -> u8\n    requires {\n        p\n    }\n{\n    0\n}\n\n\
                pub fn c() {\n    requires { p }\n}\n\npub fn d()\n    ensures_of { p }\n{\n}\n";
    let expected = [
        ("a", true, true),
        ("b", true, false),
        ("c", false, false),
        ("d", false, false),
    ];
    assert_eq!(told(code), expected);
}

#[test]
fn a_name_may_be_handed_on_among_others() {
    let code = "use low::other;\npub use file::{DONE, Got};\n\npub use long::{\n    One,\n    two,\n};\npub use last::three;\n";
    for (name, module) in [
        ("DONE", "file"),
        ("Got", "file"),
        ("two", "long"),
        ("three", "last"),
    ] {
        assert_eq!(handed_on(code, name), Some(module), "{name}");
    }
    for name in ["Go", "other", "long", "file", "One, two"] {
        assert_eq!(handed_on(code, name), None, "{name}");
    }
}

#[test]
fn the_links_lead_somewhere() {
    let tree = tree();
    for page in tree.pages() {
        let text = tree.read(&page).expect("a page");
        assert_eq!(links::faults(&tree, &page, &text), Vec::<String>::new());
    }
}

#[test]
fn a_broken_link_is_told() {
    let text = "[a](CALLS.md) `[b](no)`\n[c](../README.md#top), [d](NONE.md)\n";
    assert_eq!(
        links::faults(&tree(), "docs/ANY.md", text),
        ["docs/ANY.md:2: no NONE.md"]
    );
}
