//! "Each number is written in groups of seven bits, low group first."

use crate::limits::NUMBER;

const MORE: u8 = 0x80;
const LONGEST: usize = 3;

/// Reads one number at a position that counts as the end if it is past it.
/// Gives the number and the position after it, or the place of the trouble:
/// the first byte, which for a missing number is the file's length.
pub fn read(bytes: &[u8], position: usize) -> Result<(u32, usize), usize> {
    let start = position.min(bytes.len());
    let mut value = 0;
    for (group, &byte) in bytes[start..].iter().take(LONGEST).enumerate() {
        value += u32::from(byte & !MORE) << (7 * group);
        if byte & MORE == 0 {
            // "Shortest form only, so the last byte of two or three is not 0."
            let shortest = group == 0 || byte != 0;
            let next = start + group + 1;
            return if shortest {
                Ok((value, next))
            } else {
                Err(start)
            };
        }
    }
    // Missing, cut short, or a fourth byte needed.
    Err(start)
}

/// How many bytes the number takes: one to three; none if it is too large.
pub fn length(value: u32) -> Option<usize> {
    match value {
        0..=0x7F => Some(1),
        0x80..=0x3FFF => Some(2),
        0x4000..=NUMBER => Some(3),
        _ => None,
    }
}

/// Adds the number's bytes to a list. Nothing is added for one too large.
pub fn push(bytes: &mut Vec<u8>, value: u32) {
    for group in 0..length(value).unwrap_or(0) {
        let rest = value >> (7 * group);
        let more = if rest > 0x7F { MORE } else { 0 };
        bytes.push((rest & 0x7F) as u8 | more);
    }
}
