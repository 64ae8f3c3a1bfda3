//! The drills that are measured.

use second::events::Event;
use second::make::history::History;
use second::make::network::Network;
use second::random::Random;

/// A drill file, whole and cut after some events.
pub struct Drill {
    pub name: String,
    pub short: Vec<u8>,
    pub long: Vec<u8>,
    /// How many events the whole file has, and how many of them more.
    pub all: u64,
    pub events: u64,
    /// Of these: turns and failures, and what is in flight at the end.
    pub turns: u32,
    pub failures: u32,
    pub flying: u32,
}

pub struct Shape {
    pub name: String,
    pub nodes: u32,
    pub links: u32,
    pub flying: u32,
    /// So many links fail before the first packet is sent.
    pub down: u32,
    /// A link fails at every so many events; 0 for never.
    pub storm: u32,
    pub events: u32,
}

impl Shape {
    pub fn steady(nodes: u32, links: u32, flying: u32, down: u32) -> Shape {
        let name = match down {
            0 => format!("{nodes} nodes, {links} links, {flying} in flight"),
            _ => format!("{nodes} nodes, {links} links, {flying} in flight, {down} links down"),
        };
        Shape {
            name,
            nodes,
            links,
            flying,
            down,
            storm: 0,
            events: 20_000,
        }
    }

    fn storm() -> Shape {
        Shape {
            name: "64 nodes, 256 links, storm".into(),
            nodes: 64,
            links: 256,
            flying: 100,
            down: 0,
            storm: 28,
            events: 6_000,
        }
    }

    /// The five rows.
    pub fn rows() -> Vec<Shape> {
        vec![
            Shape::steady(3, 3, 2, 0),
            Shape::steady(24, 60, 24, 0),
            Shape::steady(64, 256, 250, 0),
            Shape::steady(64, 256, 250, 8),
            Shape::storm(),
        ]
    }

    /// The same flight on more and more links.
    pub fn by_links() -> Vec<Shape> {
        let links = [16, 32, 64, 96, 128, 192, 256];
        links.map(|links| Shape::steady(16, links, 24, 0)).into()
    }

    /// More and more packets on the same links.
    pub fn by_flight() -> Vec<Shape> {
        let flying = [1, 16, 32, 64, 128, 192, 250];
        flying
            .map(|flying| Shape::steady(64, 256, flying, 0))
            .into()
    }

    pub fn drill(&self) -> Drill {
        let mut random = Random::new(u64::from(self.nodes * 1000 + self.links));
        let mut history = History::new(&self.network(&mut random));
        for _ in 0..self.down {
            let event = history.likely(&mut random, 4);
            history.push(event);
        }
        // A storm is counted from its start.
        let cut = if self.storm > 0 { 0 } else { self.events / 10 };
        let mut cut_at = history.bytes.len();
        let mut before = (0, 0);
        for number in 0..self.events {
            if number == cut {
                cut_at = history.bytes.len();
                before = counts(&history);
            }
            let event = self.next(&mut random, &history, number);
            history.push(event);
        }
        let after = counts(&history);
        Drill {
            name: self.name.clone(),
            short: history.bytes[..cut_at].to_vec(),
            all: u64::from(self.down + self.events),
            events: u64::from(self.events - cut),
            turns: after.0 - before.0,
            failures: after.1 - before.1,
            flying: history.record.in_flight,
            long: history.bytes,
        }
    }

    /// Arrows lead from earlier to later nodes of a random order, and every
    /// node has one. They lead to the destination, but in a storm away from it.
    fn network(&self, random: &mut Random) -> Network {
        let mut order: Vec<u32> = (0..self.nodes).collect();
        for i in (1..self.nodes).rev() {
            order.swap(i as usize, random.draw(i + 1) as usize);
        }
        let last = self.nodes - 1;
        let mut list = Vec::new();
        for link in 0..self.links {
            let from = if link < last { link } else { random.draw(last) };
            let to = random.between(from + 1, last.min(from + 12));
            list.extend([order[from as usize], order[to as usize]]);
        }
        let destination = if self.storm > 0 { 0 } else { last };
        Network {
            nodes: self.nodes,
            destination: order[destination as usize],
            list,
        }
    }

    /// Sends while too few are in flight, else delivers; one packet in a
    /// hundred is lost.
    fn next(&self, random: &mut Random, history: &History, number: u32) -> Event {
        let kind = if self.storm > 0 && number % self.storm == self.storm - 1 {
            4
        } else if history.record.in_flight < self.flying {
            1
        } else if random.once_in(100) {
            3
        } else {
            2
        };
        history.likely(random, kind)
    }
}

fn counts(history: &History) -> (u32, u32) {
    let record = &history.record;
    let down = record.used_links().iter().filter(|link| !link.live);
    (record.used_turns().iter().sum(), down.count() as u32)
}

#[cfg(test)]
mod tests {
    use super::*;
    use crate::sides::{Buffers, LIBRARY, PEER, QUEUES};

    #[test]
    fn rows_are_drills_on_which_all_agree() {
        let mut buffers = Buffers::new();
        for shape in Shape::rows() {
            let drill = shape.drill();
            assert!(drill.long.len() <= 65_536, "{}", drill.name);
            assert!(drill.long.starts_with(&drill.short), "{}", drill.name);
            let right = second::text::drill(&drill.long, None, None);
            for side in [LIBRARY, PEER, QUEUES] {
                let length = buffers.run(side, &drill.long).expect("a side");
                let text = buffers.text(side, length);
                assert_eq!(text, right.as_bytes(), "{side}: {}", drill.name);
            }
        }
    }

    #[test]
    fn a_storm_has_failures_and_turns() {
        let drill = Shape::storm().drill();
        assert!(drill.failures > 200 && drill.turns > 200);
    }
}
