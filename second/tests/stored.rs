//! The stored drills: what they reach, and how they are shown.

use second::claims::Claims;
use second::drills::{all, file_name, list, shown};
use second::survey::Survey;
use second::text::drill;
use second::wrong::{ALL, RIGHT};

fn texts() -> Vec<String> {
    let drills = all().into_iter();
    drills
        .map(|stored| drill(&stored.bytes, RIGHT, None))
        .collect()
}

#[test]
fn each_has_a_name_and_a_reason() {
    let drills = all();
    assert!((60..1000).contains(&drills.len()));
    for (at, drill) in drills.iter().enumerate() {
        assert!(!drill.why.is_empty(), "{}", drill.name);
        let same = |other: &second::drills::Stored| other.name == drill.name;
        assert!(!drills[..at].iter().any(same), "{}", drill.name);
    }
    assert_eq!(list().lines().count(), drills.len());
    assert_eq!(file_name(7), "007.drill");
}

#[test]
fn claims_hold_on_each() {
    for stored in all() {
        let mut claims = Claims::default();
        drill(&stored.bytes, RIGHT, Some(&mut claims));
        assert!(claims.broken.is_empty(), "{}", stored.name);
    }
}

#[test]
fn everything_surveyed_comes_up() {
    let mut survey = Survey::default();
    for stored in all() {
        survey.next_drill();
        drill(&stored.bytes, RIGHT, Some(&mut survey));
    }
    let table = survey.table();
    assert!(!table.contains("| 0 |"), "{table}");
}

/// Sizes at the limit, and every answer that a file can reach.
#[test]
fn every_answer_of_a_file_comes_up() {
    let drills = all();
    for length in [65_535, 65_536, 65_537] {
        assert!(drills.iter().any(|stored| stored.bytes.len() == length));
    }
    let texts = texts();
    for start in ["refused 2 0", "refused 3 1", "refused 4 0", "refused 11 "] {
        assert!(texts.iter().any(|text| text.starts_with(start)), "{start}");
    }
    for part in [
        "\n2 0 ",
        "\n2 6 ",
        "\n2 7 ",
        "\n2 8 ",
        "\n257 9 ",
        "spoilt 11 ",
    ] {
        assert!(texts.iter().any(|text| text.contains(part)), "{part}");
    }
}

#[test]
fn each_wrong_program_is_told_by_one() {
    for (wrong, name) in ALL {
        let tells = |bytes: &[u8]| drill(bytes, Some(wrong), None) != drill(bytes, RIGHT, None);
        assert!(all().iter().any(|stored| tells(&stored.bytes)), "{name}");
    }
}

/// Each of the eleven values of a small drill is where the file is spoilt.
#[test]
fn every_place_comes_up() {
    let texts = texts();
    for place in 0..11 {
        let words = [
            format!("refused 11 {place}\n"),
            format!("spoilt 11 {place}\n"),
        ];
        let named = |text: &String| words.iter().any(|word| text.contains(word));
        assert!(texts.iter().any(named), "{place}");
    }
}

#[test]
fn a_short_text_is_shown_whole() {
    assert_eq!(
        shown(3, &[1, 0, 0, 1, 0]),
        "drill 003\n1 0 0 in\ntotal 1 1 0 0 0\nturns 0\n"
    );
    assert_eq!(shown(12, &[]), "drill 012\nrefused 11 0\n");
}

/// A text of 1,000 bytes is whole; a longer one is shown in short.
#[test]
fn a_long_text_is_shown_in_short() {
    let mut file = vec![1, 0, 0];
    let mut number = 0;
    loop {
        file.extend([1, 0]);
        number += 1;
        let text = drill(&file, RIGHT, None);
        let lines = shown(0, &file).lines().count();
        if text.len() <= 1000 {
            assert_eq!(lines, text.lines().count() + 1);
        } else {
            let short = shown(0, &file);
            let start = format!("drill 000\nlong {} ", text.len());
            let end = format!("\ntotal {number} {number} 0 0 0\nturns 0\n");
            assert!(short.starts_with(&start) && short.ends_with(&end));
            assert_eq!(lines, 4);
            return;
        }
    }
}
