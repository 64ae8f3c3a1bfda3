//! Part `writings`: events and headers into lent parts of every length.

use crate::calls::openings::{drawn, of_row, Case, ROWS};
use crate::calls::{sum, HUGE};
use crate::file::{write_event, write_header, Written};
use crate::random::Random;

const KINDS: [u32; 7] = [0, 1, 2, 3, 4, 5, HUGE];
const ARGUMENTS: [u32; 10] = [
    0, 1, 127, 128, 16_383, 16_384, 2_097_150, 2_097_151, 2_097_152, HUGE,
];

/// Rows whose headers are written into every length up to two too many.
const SMALL: [[u32; 6]; 4] = [
    [1, 0, 0, 0, 999, 0],
    [2, 1, 2, 0, 999, 0],
    [3, 2, 4, 3, 999, 0],
    [64, 63, 6, 64, 999, 0],
];

/// Link counts of two nodes, with what their header needs.
const LARGE: [(u32, u32); 4] = [(127, 257), (128, 260), (255, 514), (256, 516)];

pub fn part(random: &mut Random, text: &mut String) {
    for kind in KINDS {
        for argument in ARGUMENTS {
            for lent in 0..=6 {
                event_line(kind, argument, lent, text);
            }
        }
    }
    for row in &ROWS {
        for lent in [0, 3, 520] {
            header_line(&of_row(row), lent, text);
        }
    }
    for row in &SMALL {
        for lent in 0..=row[2] + 5 {
            header_line(&of_row(row), lent, text);
        }
    }
    for (links, needed) in LARGE {
        for lent in [1, needed - 1, needed, needed + 1, needed + 2] {
            header_line(&of_row(&[2, 0, 2 * links, 0, 999, 0]), lent, text);
        }
    }
    for _ in 0..20 {
        let case = drawn(random);
        let needed = case.list.len() as u32 + 3;
        for lent in [needed - 1, needed, needed + 2] {
            header_line(&case, lent, text);
        }
    }
}

/// The part lent: no byte is the same as its neighbours.
pub fn lent_part(length: u32) -> Vec<u8> {
    (0..length).map(|i| ((37 * i + 11) % 256) as u8).collect()
}

fn event_line(kind: u32, argument: u32, lent: u32, text: &mut String) {
    event_into(&mut lent_part(lent), kind, argument, text);
}

fn header_line(case: &Case, lent: u32, text: &mut String) {
    header_into(&mut lent_part(lent), case, text);
}

/// Writes an event into a part, and its line.
pub fn event_into(part: &mut [u8], kind: u32, argument: u32, text: &mut String) -> Written {
    let written = write_event(kind, argument, part);
    text.push_str(&format!(
        "w {kind} {argument} {} {} {} {}\n",
        part.len(),
        written.answer,
        written.count,
        sum::of_bytes(part)
    ));
    written
}

/// Writes a header into a part, and its line.
pub fn header_into(part: &mut [u8], case: &Case, text: &mut String) -> Written {
    let written = write_header(case.nodes, case.destination, &case.list, part);
    text.push_str(&format!(
        "h {} {} {} {} {} {} {} {}\n",
        case.nodes,
        case.destination,
        case.list.len(),
        part.len(),
        written.answer,
        written.place,
        written.count,
        sum::of_bytes(part)
    ));
    written
}
