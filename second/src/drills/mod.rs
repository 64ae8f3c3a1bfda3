//! The stored drills: files made once, kept beside a first program, and the
//! lines that it must print of them. The rule is in docs/DRILLS.md.

mod edges;
mod made;
mod spoilt;
mod stories;

use crate::calls::sum;
use crate::text::drill;
use crate::wrong::RIGHT;

/// A text of more bytes is shown in short.
const WHOLE: usize = 1000;

/// A drill file with its name and the reason why it is there.
pub struct Stored {
    pub name: String,
    pub why: &'static str,
    pub bytes: Vec<u8>,
}

fn stored(name: &str, why: &'static str, bytes: Vec<u8>) -> Stored {
    Stored {
        name: String::from(name),
        why,
        bytes,
    }
}

/// All of them, in the order of their numbers.
pub fn all() -> Vec<Stored> {
    let mut drills = edges::all();
    drills.extend(spoilt::all());
    drills.extend(stories::all());
    drills.extend(made::all());
    drills
}

/// The name of the file with a number.
pub fn file_name(number: usize) -> String {
    format!("{number:03}.drill")
}

/// A line for each: its number, its name and why it is there.
pub fn list() -> String {
    let mut text = String::new();
    for (number, drill) in all().iter().enumerate() {
        text += &format!("{number:03} {}: {}\n", drill.name, drill.why);
    }
    text
}

/// What is printed of the drill with a number: its text, or a long one's
/// length, checksum and last two lines.
pub fn shown(number: usize, bytes: &[u8]) -> String {
    let text = drill(bytes, RIGHT, None);
    if text.len() <= WHOLE {
        return format!("drill {number:03}\n{text}");
    }
    let sum = sum::of_bytes(text.as_bytes());
    let lines: Vec<&str> = text.lines().collect();
    let last = lines[lines.len().saturating_sub(2)..].join("\n");
    format!("drill {number:03}\nlong {} {sum}\n{last}\n", text.len())
}
