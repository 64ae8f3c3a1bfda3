//! What the record holds.

use crate::limits::{LINKS, NODES, PACKETS};

#[derive(Clone, Copy, Debug, PartialEq, Eq)]
pub enum Direction {
    In,
    Out,
}

/// One end of a link: the node it is at, and what that node keeps about it.
#[derive(Clone, Copy, Debug, PartialEq, Eq)]
pub struct End {
    pub node: u32,
    pub direction: Direction,
    pub local: bool,
    pub remote: bool,
    pub mark: bool,
}

#[derive(Clone, Copy, Debug, PartialEq, Eq)]
pub struct Link {
    pub ends: [End; 2],
    pub live: bool,
}

#[derive(Clone, Copy, Debug, PartialEq, Eq)]
pub struct Packet {
    pub number: u32,
    pub lane: u32,
    pub bit: bool,
}

/// The counts stand beside tables of full size, so that a record with a count
/// out of range can be handed in and refused. Entries past a count are no part
/// of the record.
#[derive(Clone, Debug)]
pub struct Record {
    pub nodes: u32,
    pub destination: u32,
    pub links: u32,
    pub in_flight: u32,
    pub events: u32,
    pub admitted: u32,
    pub delivered: u32,
    pub lost: u32,
    pub stranded: u32,
    pub link: [Link; LINKS as usize],
    pub turns: [u32; NODES as usize],
    /// Oldest sent first.
    pub flight: [Packet; PACKETS as usize],
}

pub const BLANK_END: End = End {
    node: 0,
    direction: Direction::In,
    local: false,
    remote: false,
    mark: false,
};

pub const BLANK_LINK: Link = Link {
    ends: [BLANK_END; 2],
    live: false,
};

pub const BLANK_PACKET: Packet = Packet {
    number: 0,
    lane: 0,
    bit: false,
};

/// The part of a table that a count says is used, cut at the table's size.
fn used<T>(table: &[T], count: u32) -> &[T] {
    &table[..table.len().min(count as usize)]
}

impl Record {
    /// "The record of one node, destination 0, no link, just opened."
    pub fn lone() -> Record {
        Record {
            nodes: 1,
            destination: 0,
            links: 0,
            in_flight: 0,
            events: 0,
            admitted: 0,
            delivered: 0,
            lost: 0,
            stranded: 0,
            link: [BLANK_LINK; LINKS as usize],
            turns: [0; NODES as usize],
            flight: [BLANK_PACKET; PACKETS as usize],
        }
    }

    pub fn used_links(&self) -> &[Link] {
        used(&self.link, self.links)
    }

    pub fn used_links_mut(&mut self) -> &mut [Link] {
        let count = self.used_links().len();
        &mut self.link[..count]
    }

    pub fn used_turns(&self) -> &[u32] {
        used(&self.turns, self.nodes)
    }

    pub fn used_flight(&self) -> &[Packet] {
        used(&self.flight, self.in_flight)
    }

    pub fn has_live_link(&self, node: u32) -> bool {
        let at = |link: &Link| link.ends.iter().any(|end| end.node == node);
        self.used_links().iter().any(|link| link.live && at(link))
    }

    /// "Becomes the newest in flight." A full table takes no more.
    pub fn put(&mut self, packet: Packet) {
        if let Some(slot) = self.flight.get_mut(self.in_flight as usize) {
            *slot = packet;
            self.in_flight += 1;
        }
    }

    /// Takes one packet out; "the order of the others stays".
    pub fn take(&mut self, index: usize) -> Packet {
        let packet = self.flight[index];
        self.flight.copy_within(index + 1.., index);
        self.in_flight -= 1;
        packet
    }
}

/// "Entries past those used may hold anything and are no part of the record;
/// two records are equal when the rest agrees."
impl PartialEq for Record {
    fn eq(&self, other: &Record) -> bool {
        let counts = |r: &Record| {
            [
                r.nodes,
                r.destination,
                r.links,
                r.in_flight,
                r.events,
                r.admitted,
                r.delivered,
                r.lost,
                r.stranded,
            ]
        };
        counts(self) == counts(other)
            && self.used_links() == other.used_links()
            && self.used_turns() == other.used_turns()
            && self.used_flight() == other.used_flight()
    }
}

impl Eq for Record {}
