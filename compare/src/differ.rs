//! A difference between two programs: found, made small, and told.

use crate::shrink::shrink;
use crate::sides::Side;

/// The first of the sides whose text is not the judge's; else the judge's.
pub fn first_other(
    judge: &mut dyn Side,
    sides: &mut [Box<dyn Side>],
    file: &[u8],
) -> Result<Vec<u8>, usize> {
    let right = judge.text(file);
    match sides.iter_mut().position(|side| side.text(file) != right) {
        Some(other) => Err(other),
        None => Ok(right),
    }
}

/// The file as decimal bytes, made small, and both texts.
pub fn told(judge: &mut dyn Side, side: &mut dyn Side, name: &str, file: &[u8]) -> String {
    let small = shrink(file, &mut |tried| judge.text(tried) != side.text(tried));
    let (right, other) = (judge.text(&small), side.text(&small));
    let mut words = format!(
        "{} and {} differ on {name}, {} bytes, here {}:\n{}\n",
        judge.name(),
        side.name(),
        file.len(),
        small.len(),
        decimal(&small)
    );
    for (name, text) in [(judge.name(), right), (side.name(), other)] {
        words += &format!("{name}:\n{}", String::from_utf8_lossy(&text));
        if text.last() != Some(&b'\n') {
            words += "(no newline)\n";
        }
    }
    words
}

pub fn decimal(bytes: &[u8]) -> String {
    let words: Vec<String> = bytes.iter().map(u8::to_string).collect();
    words.join(" ")
}
