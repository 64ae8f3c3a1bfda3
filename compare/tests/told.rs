//! Seeded faults: each must be told.

use std::fs;
use std::os::unix::fs::PermissionsExt;
use std::path::{Path, PathBuf};

use compare::differ::{first_other, told};
use compare::mutate::mutant;
use compare::plan::{compare, fuzz, Plan};
use compare::shrink::shrink;
use compare::sides::{Library, Run, Second, Side};
use second::make::edges;
use second::wrong::{self, RIGHT};

const DRILL: &str = concat!(env!("CARGO_MANIFEST_DIR"), "/../crates/drill/out/drill");

fn plan(program: &Path, judge: wrong::Program) -> Plan {
    Plan {
        from: 1,
        drills: 300,
        files: 10,
        program: program.to_path_buf(),
        judge,
    }
}

fn difference(plan: &Plan) -> Option<String> {
    compare(plan, &mut |_| {}).err()
}

/// A program that hands the drill's text on through a command.
fn changed(name: &str, command: &str) -> PathBuf {
    let path = std::env::temp_dir().join(format!("fiddleroost-{}-{name}", std::process::id()));
    let script = format!("#!/bin/sh\n'{DRILL}' | {command}\n");
    fs::write(&path, script).expect("a place for the program");
    let run = fs::Permissions::from_mode(0o755);
    fs::set_permissions(&path, run).expect("a program that can be run");
    path
}

#[test]
fn nothing_differs() {
    assert_eq!(difference(&plan(Path::new(DRILL), RIGHT)), None);
}

#[test]
fn each_wrong_program_is_told() {
    for (wrong, name) in wrong::ALL {
        let words = difference(&plan(Path::new(DRILL), Some(wrong)));
        assert!(
            words.is_some_and(|words| words.contains("differ")),
            "{name}"
        );
    }
}

#[test]
fn a_wrong_drill_is_told() {
    for (name, command) in [
        ("one-byte", "sed 's/^7 0 1 in$/7 0 1 on/'"),
        ("no-newline", "head -c -1"),
        ("one-more", "sed '$a x'"),
        ("crash", "{ cat; kill -SEGV $$; }"),
    ] {
        let path = changed(name, command);
        let words = difference(&plan(&path, RIGHT));
        fs::remove_file(&path).expect("the program is there");
        assert!(
            words.is_some_and(|words| words.contains("differ")),
            "{name}"
        );
    }
    let missing = Path::new("/nowhere/drill");
    assert!(difference(&plan(missing, RIGHT)).is_some());
}

/// The library with one byte of some texts changed.
struct Spoilt(Library);

impl Side for Spoilt {
    fn name(&self) -> String {
        "a spoilt library".into()
    }

    fn text(&mut self, file: &[u8]) -> Vec<u8> {
        let mut text = self.0.text(file);
        if let Some(at) = text.windows(5).position(|five| five == b" lost") {
            text[at + 1] = b'L';
        }
        text
    }
}

#[test]
fn a_changed_byte_is_told_and_made_small() {
    let file = mutant(4);
    let long = edges::named("lose-last-lane").expect("an edge");
    let mut sides: Vec<Box<dyn Side>> = vec![Box::new(Spoilt(Library::new()))];
    assert_eq!(first_other(&mut Second(RIGHT), &mut sides, &long), Err(0));
    let words = told(&mut Second(RIGHT), &mut *sides[0], "a file", &long);
    let bytes = words.lines().nth(1).expect("the bytes");
    assert_eq!(bytes, "3 0 1 2 1 1 2 3 0", "{words}");
    assert_eq!(file, mutant(4));
}

#[test]
fn shrinking_keeps_what_it_is_asked_to() {
    let file = mutant(9);
    let small = shrink(&file, &mut |bytes| bytes.contains(&2));
    assert_eq!(small, [2]);
}

#[test]
fn damaged_files_tell_a_wrong_program() {
    let time = std::time::Duration::from_secs(60);
    let told = fuzz(Some(wrong::Wrong::NewestPacket), 1, time, &mut |_| {});
    assert!(told.is_err());
}

#[test]
fn a_program_that_is_right_gives_the_text() {
    let d1 = edges::named("p12-d1").expect("an edge");
    let text = Run::new(Path::new(DRILL)).text(&d1);
    assert_eq!(text, Second(RIGHT).text(&d1));
}
