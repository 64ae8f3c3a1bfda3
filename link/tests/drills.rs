//! Drills through the static library.

use link::{text, text_into, text_most, TEXT_MOST};

const D1: &[u8] = include_bytes!("../../crates/drill/stdin");
const D1_TEXT: &[u8] = include_bytes!("../../crates/drill/stdout");

#[test]
fn sizes_agree() {
    assert_eq!(text_most(), TEXT_MOST);
}

#[test]
fn d1_whole() {
    assert_eq!(text(D1), D1_TEXT);
}

#[test]
fn oversize_refused() {
    let file = [1u8; 65_537];
    assert_eq!(text(&file), b"refused 11 65536\n");
    assert_eq!(text(&file[..65_536]), b"refused 2 0\n");
}

#[test]
fn empty_refused() {
    assert_eq!(text(&[]), b"refused 11 0\n");
}

/// As many lines as a file can have, so the most that is ever written.
#[test]
fn longest_file() {
    let mut file = vec![1, 0, 0];
    while file.len() < 65_535 {
        file.extend([1, 0]);
    }
    let text = String::from_utf8(text(&file)).expect("plain text");
    let last: Vec<&str> = text.lines().rev().take(3).collect();
    assert_eq!(
        last,
        ["turns 0", "total 32766 32766 0 0 0", "32766 0 32765 in"]
    );
}

#[test]
fn bytes_after_the_text_stay() {
    let marks = || (0..TEXT_MOST).map(|i| (i % 251) as u8).collect::<Vec<u8>>();
    let before = marks();
    let mut out: Box<[u8; TEXT_MOST]> = marks().try_into().expect("so many bytes");
    let length = text_into(D1, &mut out);
    assert_eq!(&out[..length], D1_TEXT);
    assert_eq!(&out[length..], &before[length..]);
}

/// The stack that the header asks for is enough: a thread that has no more ends.
#[test]
fn stack_of_the_header() {
    let thread = std::thread::Builder::new().stack_size(128 * 1024);
    let mut out = vec![0u8; TEXT_MOST].into_boxed_slice();
    let length = thread
        .spawn(move || text_into(D1, (&mut out[..]).try_into().expect("so many bytes")))
        .expect("a thread")
        .join()
        .expect("a text");
    assert_eq!(length, D1_TEXT.len());
}
