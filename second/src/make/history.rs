//! A drill file in the making: each event is written and also run, so that
//! the next one can be chosen to apply.

use crate::events::{apply, Event, Outcome};
use crate::limits::{LINKS, NODES};
use crate::make::network::Network;
use crate::number;
use crate::opening::open;
use crate::random::Random;
use crate::record::Record;

pub struct History {
    pub bytes: Vec<u8>,
    pub record: Record,
    /// Where the header ends.
    pub start: usize,
}

/// How often each event is chosen, one against the other.
#[derive(Clone, Copy)]
pub struct Weights {
    pub send: u32,
    pub deliver: u32,
    pub lose: u32,
    pub fail: u32,
    pub wild: u32,
}

impl History {
    pub fn new(network: &Network) -> History {
        let bytes = header_bytes(network.nodes, network.destination, &network.list);
        History {
            start: bytes.len(),
            bytes,
            record: open(network.nodes, network.destination, &network.list).record,
        }
    }

    pub fn push(&mut self, event: Event) -> Outcome {
        let (kind, argument) = event.kind_and_argument();
        number::push(&mut self.bytes, kind);
        number::push(&mut self.bytes, argument);
        apply(&mut self.record, event)
    }

    pub fn step(&mut self, random: &mut Random, weights: Weights) {
        let w = weights;
        let mut t = random.draw(w.send + w.deliver + w.lose + w.fail + w.wild);
        for (weight, kind) in [(w.send, 1), (w.deliver, 2), (w.lose, 3), (w.fail, 4)] {
            if t < weight {
                let event = self.likely(random, kind);
                self.push(event);
                return;
            }
            t -= weight;
        }
        let event = self.wild(random);
        self.push(event);
    }

    /// An event that will mostly be accepted.
    pub fn likely(&self, random: &mut Random, kind: u32) -> Event {
        match kind {
            1 => Event::Send {
                node: self.sender(random),
            },
            2 => Event::Deliver {
                lane: self.busy_lane(random),
            },
            3 => Event::Lose {
                lane: self.busy_lane(random),
            },
            _ => Event::Fail {
                link: self.live_link(random),
            },
        }
    }

    /// Three tries for a linked node that is not the destination.
    fn sender(&self, random: &mut Random) -> u32 {
        let record = &self.record;
        let mut node = random.draw(record.nodes);
        for _ in 0..2 {
            if node == record.destination || !record.has_live_link(node) {
                node = random.draw(record.nodes);
            }
        }
        node
    }

    fn busy_lane(&self, random: &mut Random) -> u32 {
        match self.record.used_flight() {
            [] => random.draw(2 * self.record.links),
            flight => random.pick(flight).lane,
        }
    }

    /// Half the time the link of a packet in flight.
    fn live_link(&self, random: &mut Random) -> u32 {
        let links = self.record.used_links();
        if !self.record.used_flight().is_empty() && random.once_in(2) {
            return self.busy_lane(random) / 2;
        }
        let start = random.draw(self.record.links);
        let mut after = (start..self.record.links).chain(0..start);
        after
            .find(|&link| links[link as usize].live)
            .unwrap_or(start)
    }

    /// Any event with an argument at or near a bound.
    pub fn wild(&self, random: &mut Random) -> Event {
        let kind = random.between(1, 4);
        let bound = match kind {
            1 => self.record.nodes,
            2 | 3 => 2 * self.record.links,
            _ => self.record.links,
        };
        let argument = match random.draw(8) {
            0 => bound,
            1 => bound + 1 + random.draw(3),
            2 => random.pick(&[127, 128, NODES, LINKS, 2 * LINKS, 16_383, 16_384, 2_097_151]),
            3 => bound.saturating_sub(1),
            _ => random.draw(bound),
        };
        Event::of(kind, argument).unwrap_or(Event::Send { node: 0 })
    }
}

/// The bytes of a header, right or not: nothing is inspected. An odd number
/// at the list's end is written too.
pub fn header_bytes(nodes: u32, destination: u32, list: &[u32]) -> Vec<u8> {
    let mut bytes = Vec::new();
    for value in [nodes, destination, (list.len() / 2) as u32] {
        number::push(&mut bytes, value);
    }
    for &value in list {
        number::push(&mut bytes, value);
    }
    bytes
}
