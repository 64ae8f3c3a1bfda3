//! A file made smaller as long as something about it stays.

use second::file::{read_event, read_header, Reading};
use second::make::history::header_bytes;
use second::number;

type Test<'a> = &'a mut dyn FnMut(&[u8]) -> bool;

/// Drops events, links and bytes while the test holds.
pub fn shrink(file: &[u8], holds: Test) -> Vec<u8> {
    let mut file = file.to_vec();
    loop {
        let before = file.len();
        file = fewer_events(&file, holds);
        file = fewer_links(&file, holds);
        file = fewer(&file, &mut |bytes| holds(bytes));
        if file.len() == before {
            return file;
        }
    }
}

/// Drops runs of items, half of them at first and one at a time at last.
fn fewer<T: Clone>(items: &[T], holds: &mut dyn FnMut(&[T]) -> bool) -> Vec<T> {
    let mut items = items.to_vec();
    let mut size = items.len();
    while size > 0 {
        let mut end = items.len();
        while end > 0 {
            let start = end.saturating_sub(size);
            let mut tried = items[..start].to_vec();
            tried.extend_from_slice(&items[end..]);
            if holds(&tried) {
                items = tried;
            }
            end = start;
        }
        size /= 2;
    }
    items
}

/// A good file by its parts; what cannot be read stands last.
struct Parts {
    nodes: u32,
    destination: u32,
    list: Vec<u32>,
    events: Vec<(u32, u32)>,
    rest: Vec<u8>,
}

impl Parts {
    fn of(file: &[u8]) -> Option<Parts> {
        let header = read_header(file, 0);
        let mut at = header.events()?;
        let record = header.opening.record;
        let ends = record.used_links().iter().flat_map(|link| link.ends);
        let mut events = Vec::new();
        while let Reading::Event { event, next } = read_event(file, at) {
            events.push(event.kind_and_argument());
            at = next;
        }
        Some(Parts {
            nodes: record.nodes,
            destination: record.destination,
            list: ends.map(|end| end.node).collect(),
            events,
            rest: file[at..].to_vec(),
        })
    }

    fn bytes(&self, list: &[u32], events: &[(u32, u32)]) -> Vec<u8> {
        let mut bytes = header_bytes(self.nodes, self.destination, list);
        for &(kind, argument) in events {
            number::push(&mut bytes, kind);
            number::push(&mut bytes, argument);
        }
        bytes.extend_from_slice(&self.rest);
        bytes
    }
}

fn fewer_events(file: &[u8], holds: Test) -> Vec<u8> {
    let Some(parts) = Parts::of(file) else {
        return file.to_vec();
    };
    let events = fewer(&parts.events, &mut |tried| {
        holds(&parts.bytes(&parts.list, tried))
    });
    let bytes = parts.bytes(&parts.list, &events);
    kept(bytes, file, holds)
}

/// A link goes with its own events; those of later links are numbered anew.
fn fewer_links(file: &[u8], holds: Test) -> Vec<u8> {
    let mut file = file.to_vec();
    let links = Parts::of(&file).map_or(0, |parts| parts.list.len() / 2);
    for link in (0..links as u32).rev() {
        let Some(parts) = Parts::of(&file) else {
            break;
        };
        let mut list = parts.list.clone();
        list.drain(2 * link as usize..2 * link as usize + 2);
        let events = parts
            .events
            .iter()
            .filter_map(|&event| without(link, event));
        let tried = parts.bytes(&list, &events.collect::<Vec<_>>());
        file = kept(tried, &file, holds);
    }
    file
}

/// An event once a link is gone; none if it was about that link.
fn without(link: u32, (kind, argument): (u32, u32)) -> Option<(u32, u32)> {
    let (own, step) = match kind {
        1 => return Some((kind, argument)),
        4 => (argument, 1),
        _ => (argument / 2, 2),
    };
    match own.cmp(&link) {
        std::cmp::Ordering::Less => Some((kind, argument)),
        std::cmp::Ordering::Equal => None,
        std::cmp::Ordering::Greater => Some((kind, argument - step)),
    }
}

fn kept(tried: Vec<u8>, file: &[u8], holds: Test) -> Vec<u8> {
    if tried.len() < file.len() && holds(&tried) {
        tried
    } else {
        file.to_vec()
    }
}
