//! Part `readings`: numbers, events and headers at any position.

use crate::calls::{sum, HUGE};
use crate::file::{read_event, read_header, Reading};
use crate::number;
use crate::random::Random;

const NUMBER_BYTES: [u8; 6] = [0, 1, 127, 128, 129, 255];
const EVENT_BYTES: [u8; 6] = [0, 1, 4, 5, 128, 255];
const LINK_COUNTS: [u32; 7] = [127, 128, 129, 255, 256, 257, 2_097_151];
const SIZES: [[u32; 2]; 12] = [
    [0, 0],
    [1, 0],
    [1, 1],
    [64, 0],
    [64, 63],
    [64, 64],
    [64, 128],
    [65, 0],
    [127, 0],
    [128, 0],
    [16_384, 0],
    [2_097_151, 2_097_151],
];

/// Nine bytes each; the first number is how many of them are the file.
const FILES: [[u8; 10]; 14] = [
    [7, 2, 0, 2, 0, 1, 1, 0, 0, 0],
    [9, 3, 0, 3, 0, 1, 1, 2, 2, 0],
    [9, 3, 0, 3, 0, 1, 1, 2, 0, 2],
    [9, 3, 0, 3, 0, 1, 1, 0, 3, 0],
    [9, 3, 0, 3, 0, 1, 1, 0, 2, 2],
    [9, 3, 0, 3, 0, 3, 1, 1, 2, 0],
    [8, 3, 0, 3, 0, 1, 1, 0, 0, 0],
    [8, 3, 0, 2, 1, 1, 0, 128, 0, 0],
    [6, 3, 0, 2, 1, 1, 0, 0, 0, 0],
    [5, 65, 0, 1, 128, 0, 0, 0, 0, 0],
    [3, 65, 0, 128, 0, 0, 0, 0, 0, 0],
    [2, 0, 9, 0, 0, 0, 0, 0, 0, 0],
    [6, 2, 129, 0, 1, 0, 1, 0, 0, 0],
    [6, 2, 2, 1, 0, 0, 0, 0, 0, 0],
];

pub fn part(random: &mut Random, text: &mut String) {
    every_short_file(&NUMBER_BYTES, number_line, text);
    every_short_file(&EVENT_BYTES, event_line, text);
    for _ in 0..6 {
        let bytes = any_bytes(random);
        file_line(&bytes, text);
        at_every_position(&bytes, number_line, text);
        at_every_position(&bytes, event_line, text);
    }
    for _ in 0..4 {
        let bytes = good_events(random);
        file_line(&bytes, text);
        at_every_position(&bytes, event_line, text);
    }
    for _ in 0..40 {
        drawn_header(random, text);
    }
    fixed_headers(text);
}

type Line = fn(&[u8], u32, &mut String);

/// All files of 0 to 3 bytes out of six, read at position 0.
fn every_short_file(six: &[u8; 6], line: Line, text: &mut String) {
    for length in 0..=3 {
        for index in 0..6_usize.pow(length) {
            let digit = |i| six[index / 6_usize.pow(i) % 6];
            let bytes: Vec<u8> = (0..length).map(digit).collect();
            line(&bytes, 0, text);
        }
    }
}

fn at_every_position(bytes: &[u8], line: Line, text: &mut String) {
    let length = bytes.len() as u32;
    for position in (0..=length + 2).chain([1000, HUGE]) {
        line(bytes, position, text);
    }
}

fn any_bytes(random: &mut Random) -> Vec<u8> {
    let length = 16 + random.draw(9);
    (0..length)
        .map(|_| match random.draw(4) {
            0 => random.pick(&NUMBER_BYTES),
            1 => 1 + random.draw(4) as u8,
            2 => random.draw(256) as u8,
            _ => random.draw(64) as u8,
        })
        .collect()
}

fn good_events(random: &mut Random) -> Vec<u8> {
    let mut bytes = Vec::new();
    for _ in 0..8 {
        number::push(&mut bytes, 1 + random.draw(4));
        number::push(&mut bytes, argument(random));
    }
    bytes
}

/// An argument of one, two or three bytes.
pub fn argument(random: &mut Random) -> u32 {
    match random.draw(3) {
        0 => random.draw(128),
        1 => 128 + random.draw(16_256),
        _ => 16_384 + random.draw(2_080_768),
    }
}

/// Loose bytes, a good header, an event; then trouble; then six readings.
fn drawn_header(random: &mut Random, text: &mut String) {
    let before = random.draw(4);
    let mut bytes: Vec<u8> = (0..before).map(|_| random.draw(256) as u8).collect();
    let nodes = 2 + random.draw(5);
    let destination = random.draw(nodes);
    let links = random.draw(5);
    bytes.extend([nodes as u8, destination as u8, links as u8]);
    for _ in 0..links {
        let from = random.draw(nodes - 1);
        let to = from + 1 + random.draw(nodes - 1 - from);
        bytes.extend([from as u8, to as u8]);
    }
    bytes.extend([1, 0]);
    let trouble = random.draw(4);
    let at = random.draw(bytes.len() as u32) as usize;
    match trouble {
        1 => bytes[at] = random.pick(&NUMBER_BYTES),
        2 => bytes[at] = random.draw(8) as u8,
        3 => bytes.truncate(at),
        _ => {}
    }
    file_line(&bytes, text);
    let length = bytes.len() as u32;
    for position in [0, before, before + 1, length, length + 1, HUGE] {
        header_line(&bytes, position, text);
    }
}

/// The order of answers, sizes at their bounds, and link counts of one, two and three bytes, whole
/// and one byte short.
fn fixed_headers(text: &mut String) {
    for file in &FILES {
        let bytes = &file[1..=usize::from(file[0])];
        file_line(bytes, text);
        header_line(bytes, 0, text);
    }
    for size in SIZES {
        let mut bytes = Vec::new();
        number::push(&mut bytes, size[0]);
        number::push(&mut bytes, size[1]);
        bytes.push(0);
        file_line(&bytes, text);
        header_line(&bytes, 0, text);
    }
    for links in LINK_COUNTS {
        let mut bytes = vec![2, 0];
        number::push(&mut bytes, links);
        for _ in 0..links.min(257) {
            bytes.extend([0, 1]);
        }
        for cut in [0, 1] {
            bytes.truncate(bytes.len() - cut);
            file_line(&bytes, text);
            header_line(&bytes, 0, text);
        }
    }
}

pub fn file_line(bytes: &[u8], text: &mut String) {
    let (length, sum) = (bytes.len(), sum::of_bytes(bytes));
    text.push_str(&format!("b {length} {sum}\n"));
}

fn number_line(bytes: &[u8], position: u32, text: &mut String) {
    let words = match number::read(bytes, position as usize) {
        Ok((value, next)) => format!("0 0 {value} {next}"),
        Err(place) => format!("11 {place} - -"),
    };
    text.push_str(&format!("n {position} {words}\n"));
}

pub fn event_line(bytes: &[u8], position: u32, text: &mut String) {
    let words = match read_event(bytes, position as usize) {
        Reading::End { next } => format!("0 0 - - {next}"),
        Reading::Spoilt { place, next } => format!("11 {place} - - {next}"),
        Reading::Event { event, next } => {
            let (kind, argument) = event.kind_and_argument();
            format!("0 0 {kind} {argument} {next}")
        }
    };
    text.push_str(&format!("e {position} {words}\n"));
}

pub fn header_line(bytes: &[u8], position: u32, text: &mut String) {
    let header = read_header(bytes, position as usize);
    text.push_str(&format!(
        "r {position} {} {} {} {}\n",
        header.opening.answer,
        header.opening.place,
        header.next,
        sum::of_record(&header.opening.record)
    ));
}
