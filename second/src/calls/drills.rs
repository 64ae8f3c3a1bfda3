//! Part `drills`: whole drills written and read back, then damaged and read
//! as far as they go.

use crate::answer::DONE;
use crate::calls::openings::drawn;
use crate::calls::readings::{argument, event_line, file_line, header_line};
use crate::calls::writings::{event_into, header_into, lent_part};
use crate::file::{read_event, read_header, Reading};
use crate::random::Random;

/// More than any of these drills needs.
const LENT: u32 = 700;

pub fn part(random: &mut Random, text: &mut String) {
    for _ in 0..120 {
        if let Some(file) = written(random, text) {
            read_whole(&file, text);
            for damaged in damages(random, &file) {
                read_whole(&damaged, text);
            }
        }
    }
}

/// The file of a drawn drill, written piece by piece; none if its header is
/// refused.
fn written(random: &mut Random, text: &mut String) -> Option<Vec<u8>> {
    let mut part = lent_part(LENT);
    let header = header_into(&mut part, &drawn(random), text);
    if header.answer != DONE {
        return None;
    }
    let mut length = header.count;
    for _ in 0..random.draw(12) {
        let kind = 1 + random.draw(4);
        length += event_into(&mut part[length..], kind, argument(random), text).count;
    }
    part.truncate(length);
    Some(part)
}

fn damages(random: &mut Random, file: &[u8]) -> [Vec<u8>; 6] {
    let mut files = [0; 6].map(|_| file.to_vec());
    let length = file.len() as u32;
    files[0].truncate(random.draw(length) as usize);
    let at = random.draw(length) as usize;
    files[1][at] = 128 + random.draw(128) as u8;
    let at = random.draw(length) as usize;
    files[2][at] = random.draw(256) as u8;
    files[3][file.len() - 1] += 128;
    files[3].push(0);
    files[4].extend([5, 0]);
    files[5].extend([129, 129, 129, 1]);
    files
}

/// The header, and events one after the other up to the end or a refusal.
fn read_whole(bytes: &[u8], text: &mut String) {
    file_line(bytes, text);
    header_line(bytes, 0, text);
    let mut position = read_header(bytes, 0).events();
    while let Some(at) = position {
        event_line(bytes, at as u32, text);
        position = match read_event(bytes, at) {
            Reading::Event { next, .. } => Some(next),
            Reading::End { .. } | Reading::Spoilt { .. } => None,
        };
    }
}
