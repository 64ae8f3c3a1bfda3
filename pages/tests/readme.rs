//! The README's drill: each of its bytes counts, and so does its text.

use std::fs;
use std::os::unix::fs::PermissionsExt;
use std::path::{Path, PathBuf};

use pages::example::{fault, read, Example};

const README: &str = include_str!("../../README.md");

fn example() -> Example {
    read(README).expect("a drill made by hand")
}

/// A stand-in for `drill`, which is built late: it knows these bytes alone.
fn stand_in(name: &str, known: &Example) -> PathBuf {
    let folder = std::env::temp_dir().join(format!("pages-{}-{name}", std::process::id()));
    fs::create_dir_all(&folder).expect("a folder");
    let file = |name: &str| folder.join(name);
    fs::write(file("bytes"), &known.bytes).expect("a file");
    fs::write(file("text"), &known.text).expect("a file");
    let script = "#!/bin/sh\ncd \"$(dirname \"$0\")\" && cmp -s - bytes && cat text\n";
    fs::write(file("drill"), script).expect("a program");
    let run = fs::Permissions::from_mode(0o755);
    fs::set_permissions(file("drill"), run).expect("a program that can be run");
    file("drill")
}

fn clear(program: &Path) {
    let folder = program.parent().expect("a folder");
    fs::remove_dir_all(folder).expect("a folder that can be removed");
}

#[test]
fn its_bytes_are_those_of_the_escapes() {
    let bytes = example().bytes;
    assert_eq!(bytes[..5], [3, 2, 3, 1, 2]);
    assert_eq!(bytes.len(), 3 + 3 * 2 + 12 * 2);
    let other = README.replace(r"printf '\4\0'", r"printf '\4\201\1'");
    let other = read(&other).expect("a drill").bytes;
    assert_eq!(other[13..16], [4, 129, 1]);
}

#[test]
fn a_changed_byte_is_told() {
    let right = example();
    let program = stand_in("byte", &right);
    assert_eq!(fault(&right, &program), None);
    for at in 0..right.bytes.len() {
        let mut wrong = right.clone();
        wrong.bytes[at] ^= 1;
        assert!(fault(&wrong, &program).is_some(), "byte {at}");
    }
    clear(&program);
}

#[test]
fn a_changed_text_is_told() {
    let right = example();
    let program = stand_in("text", &right);
    let wrong = README.replace("11 0 2 in\n", "11 0 2 on\n");
    let wrong = read(&wrong).expect("a drill");
    assert!(fault(&wrong, &program).is_some());
    assert!(fault(&right, Path::new("/no/such/program")).is_some());
    clear(&program);
}

#[test]
fn a_page_without_a_drill_is_told() {
    assert_eq!(read("# Fiddleroost\n"), None);
    assert_eq!(read(&README.replace("printf '", "echo '")), None);
    assert_eq!(read(&README.replace(r"'\3\2\3'", "'323'")), None);
}
