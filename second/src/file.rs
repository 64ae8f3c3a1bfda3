//! Reader and writer of drill files.

use crate::answer::{Answer, Refusal, DONE, NO_SUCH, PART_SHORT};
use crate::events::Event;
use crate::number;
use crate::opening::{inspect, inspect_sizes, open, Opening};

/// What reading one event at a position gives, and the position after it.
#[derive(Clone, Copy, Debug, PartialEq, Eq)]
pub enum Reading {
    /// "A file that ends between events is whole." The position is then the
    /// file's length: one "past the file's end counts as the end".
    End {
        next: usize,
    },
    Event {
        event: Event,
        next: usize,
    },
    /// Answer 11, with its place; the position stays at the event's kind.
    Spoilt {
        place: usize,
        next: usize,
    },
}

pub fn read_event(bytes: &[u8], position: usize) -> Reading {
    if position >= bytes.len() {
        return Reading::End { next: bytes.len() };
    }
    match kind_and_argument(bytes, position) {
        Ok((event, next)) => Reading::Event { event, next },
        Err(place) => Reading::Spoilt {
            place,
            next: position,
        },
    }
}

/// An unknown kind "ends the reading at once": its argument is not looked at.
fn kind_and_argument(bytes: &[u8], position: usize) -> Result<(Event, usize), usize> {
    let (kind, after_kind) = number::read(bytes, position)?;
    if !(1..=4).contains(&kind) {
        return Err(position);
    }
    let (argument, next) = number::read(bytes, after_kind)?;
    Event::of(kind, argument)
        .map(|event| (event, next))
        .ok_or(position)
}

/// A header read, and the position after it. A refused header leaves the
/// position where it was asked for, also past the file's end.
#[derive(Clone, Debug, PartialEq, Eq)]
pub struct Header {
    pub opening: Opening,
    pub next: usize,
}

impl Header {
    /// Where the events start; nowhere if the header is refused.
    pub fn events(&self) -> Option<usize> {
        (self.opening.answer == DONE).then_some(self.next)
    }
}

pub fn read_header(bytes: &[u8], position: usize) -> Header {
    match header_fields(bytes, position) {
        Err(refusal) => Header {
            opening: Opening::refused(refusal),
            next: position,
        },
        Ok((nodes, destination, list, after)) => {
            let opening = open(nodes, destination, &list);
            let done = opening.answer == DONE;
            let next = if done { after } else { position };
            Header { opening, next }
        }
    }
}

/// "Reading a header: node count, destination and link count (11), then 2,
/// then the links (11), then 3, then 4." Answers 3 and 4 are the opening's.
fn header_fields(bytes: &[u8], position: usize) -> Result<(u32, u32, Vec<u32>, usize), Refusal> {
    let take = |at| number::read(bytes, at).map_err(Refusal::spoilt);
    let (nodes, at) = take(position)?;
    let (destination, at) = take(at)?;
    let (links, mut at) = take(at)?;
    inspect_sizes(nodes, destination, links as usize)?;
    let mut list = Vec::new();
    for _ in 0..2 * links {
        let (node, next) = take(at)?;
        list.push(node);
        at = next;
    }
    Ok((nodes, destination, list, at))
}

/// What a writing gives; the count of bytes written is 0 when refused.
#[derive(Clone, Copy, Debug, PartialEq, Eq)]
pub struct Written {
    pub answer: Answer,
    pub place: usize,
    pub count: usize,
}

fn written(result: Result<usize, Refusal>) -> Written {
    let (refusal, count) = match result {
        Ok(count) => (Refusal::new(DONE), count),
        Err(refusal) => (refusal, 0),
    };
    Written {
        answer: refusal.answer,
        place: refusal.place,
        count,
    }
}

/// "Writing an event: 6, 12."
pub fn write_event(kind: u32, argument: u32, part: &mut [u8]) -> Written {
    let known = (1..=4).contains(&kind) && number::length(argument).is_some();
    if !known {
        return written(Err(Refusal::new(NO_SUCH)));
    }
    written(write_numbers(&[kind, argument], part))
}

/// "Opening and writing a header: 2, 3, 4, then 12."
pub fn write_header(nodes: u32, destination: u32, list: &[u32], part: &mut [u8]) -> Written {
    if let Err(refusal) = inspect(nodes, destination, list) {
        return written(Err(refusal));
    }
    let links = (list.len() / 2) as u32;
    let mut numbers = vec![nodes, destination, links];
    numbers.extend_from_slice(list);
    written(write_numbers(&numbers, part))
}

/// "The writer changes only the bytes it reports as written; those after them
/// stay."
fn write_numbers(numbers: &[u32], part: &mut [u8]) -> Result<usize, Refusal> {
    let mut bytes = Vec::new();
    for &value in numbers {
        number::push(&mut bytes, value);
    }
    let lent = part
        .get_mut(..bytes.len())
        .ok_or(Refusal::new(PART_SHORT))?;
    lent.copy_from_slice(&bytes);
    Ok(bytes.len())
}
