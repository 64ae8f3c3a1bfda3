//! Made drills: claims hold, wrong programs are told apart, nothing panics.

use second::calls;
use second::claims::Claims;
use second::judge::told_apart;
use second::make::{self, edges};
use second::text::drill;
use second::wrong::{self, RIGHT};

fn broken(bytes: &[u8], program: wrong::Program) -> usize {
    let mut claims = Claims::default();
    drill(bytes, program, Some(&mut claims));
    claims.broken.len()
}

#[test]
fn claims_hold_on_made_drills() {
    for seed in 1..=400 {
        assert_eq!(broken(&make::by_seed(seed), RIGHT), 0, "seed {seed}");
    }
}

#[test]
fn claims_hold_on_each_kind_and_edge() {
    for kind in make::KINDS.iter().filter(|kind| kind.name != "size") {
        for seed in 1..=10 {
            let bytes = make::by_kind(kind, seed);
            assert_eq!(broken(&bytes, RIGHT), 0, "{} {seed}", kind.name);
        }
    }
    for (name, bytes) in edges::all() {
        assert_eq!(broken(&bytes, RIGHT), 0, "{name}");
    }
}

/// The claims are not empty: half of the wrong programs break one.
#[test]
fn claims_break_for_wrong_programs() {
    for name in [
        "flip-local-on-news",
        "newest-packet",
        "destination-turns",
        "news-twice",
        "bounce-sent-twice",
    ] {
        let program = wrong::named(name);
        assert!(program.is_some());
        let breaks = |seed| broken(&make::by_seed(seed), program) > 0;
        assert!((1..=200).any(breaks), "{name}");
    }
}

#[test]
fn each_wrong_program_is_told_apart() {
    for (name, drills) in told_apart(1, 200) {
        assert!(drills > 0, "{name}");
    }
}

#[test]
fn texts_have_one_space_and_whole_lines() {
    for seed in 1..=200 {
        let text = drill(&make::by_seed(seed), RIGHT, None);
        assert!(text.ends_with('\n'));
        for line in text.lines() {
            assert!(!line.contains("  ") && !line.ends_with(' ') && !line.is_empty());
        }
    }
}

#[test]
fn parts_of_the_calls_are_the_whole() {
    for seed in [0, 1, 4_294_967_295] {
        let parts: String = ["open", "records", "writings", "readings", "drills", "limit"]
            .iter()
            .map(|part| calls::lines(seed, Some(part)).unwrap())
            .collect();
        assert_eq!(calls::lines(seed, None), Some(parts));
    }
    assert_eq!(calls::lines(1, Some("nothing")), None);
}

/// Many seeds, so that no drawn call panics.
#[test]
fn calls_of_many_seeds_end() {
    for seed in 2..30 {
        for part in ["open", "records", "writings", "readings", "drills"] {
            assert!(calls::lines(seed, Some(part)).is_some());
        }
    }
}
