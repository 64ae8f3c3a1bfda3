//! Opening a record from a lent list, two node numbers a link.

use crate::answer::{Answer, Refusal, BAD_LINK, BAD_SIZES, CLOSED_WALK, DONE};
use crate::limits::{LINKS, NODES};
use crate::record::{Direction, End, Link, Record};

#[derive(Clone, Debug, PartialEq, Eq)]
pub struct Opening {
    pub answer: Answer,
    pub place: usize,
    pub record: Record,
}

impl Opening {
    /// "A refused opening or header gives the record of one node, destination
    /// 0, no link, just opened."
    pub fn refused(refusal: Refusal) -> Opening {
        Opening {
            answer: refusal.answer,
            place: refusal.place,
            record: Record::lone(),
        }
    }
}

pub fn open(nodes: u32, destination: u32, list: &[u32]) -> Opening {
    match inspect(nodes, destination, list) {
        Err(refusal) => Opening::refused(refusal),
        Ok(()) => Opening {
            answer: DONE,
            place: 0,
            record: opened(nodes, destination, list),
        },
    }
}

/// The answers 2, 3, 4, in that order. Writing a header asks the same.
pub fn inspect(nodes: u32, destination: u32, list: &[u32]) -> Result<(), Refusal> {
    if !list.len().is_multiple_of(2) {
        return Err(Refusal::new(BAD_SIZES));
    }
    inspect_sizes(nodes, destination, list.len() / 2)?;
    inspect_links(nodes, list)
}

/// Answer 2, for a number of links that is known before the links are.
pub fn inspect_sizes(nodes: u32, destination: u32, links: usize) -> Result<(), Refusal> {
    if !(1..=NODES).contains(&nodes) || destination >= nodes || links > LINKS as usize {
        return Err(Refusal::new(BAD_SIZES));
    }
    Ok(())
}

/// Answer 3 with "the first such link", then answer 4. Sizes are known good.
fn inspect_links(nodes: u32, list: &[u32]) -> Result<(), Refusal> {
    for (place, link) in list.chunks_exact(2).enumerate() {
        if link[0] >= nodes || link[1] >= nodes || link[0] == link[1] {
            return Err(Refusal::at(BAD_LINK, place));
        }
    }
    if has_closed_walk(nodes, list) {
        return Err(Refusal::new(CLOSED_WALK));
    }
    Ok(())
}

/// Takes away, as long as there is one, a node with no arrow out to a node
/// still there. A node is left over exactly if there is a closed walk.
fn has_closed_walk(nodes: u32, list: &[u32]) -> bool {
    let mut here = vec![true; nodes as usize];
    for _ in 0..nodes {
        for node in 0..nodes as usize {
            let leaves = |link: &[u32]| link[0] as usize == node && here[link[1] as usize];
            if here[node] && !list.chunks_exact(2).any(leaves) {
                here[node] = false;
            }
        }
    }
    here.contains(&true)
}

/// "At opening the arrow goes from end 0 to end 1 .. all links are live and
/// all bits 0; the In ends are marked, the Out ends not; all counts are 0."
fn opened(nodes: u32, destination: u32, list: &[u32]) -> Record {
    let mut record = Record::lone();
    record.nodes = nodes;
    record.destination = destination;
    record.links = (list.len() / 2) as u32;
    for (link, pair) in record.link.iter_mut().zip(list.chunks_exact(2)) {
        *link = Link {
            ends: [
                end(pair[0], Direction::Out, false),
                end(pair[1], Direction::In, true),
            ],
            live: true,
        };
    }
    record
}

fn end(node: u32, direction: Direction, mark: bool) -> End {
    End {
        node,
        direction,
        local: false,
        remote: false,
        mark,
    }
}
