//! The makers, one for each kind of drill file.

use crate::events::Event;
use crate::limits::{FILE, LINKS, NODES, PACKETS};
use crate::make::history::{header_bytes, History, Weights};
use crate::make::network::{acyclic, Network, Reach};
use crate::number;
use crate::random::Random;

const EVEN: Weights = Weights {
    send: 10,
    deliver: 24,
    lose: 2,
    fail: 1,
    wild: 2,
};

/// Small networks, any mix of events.
pub fn mixed(random: &mut Random) -> Vec<u8> {
    let nodes = random.between(2, 12);
    let links = random.between(1, 3 * nodes);
    let network = acyclic(random, nodes, links, Reach::Any);
    let count = random.between(20, 300);
    busy(random, &network, EVEN, count)
}

/// Long distances and few ways round, so that nodes turn again and again.
pub fn deep(random: &mut Random) -> Vec<u8> {
    let nodes = random.between(4, 24);
    let links = random.between(nodes - 1, 2 * nodes);
    let network = acyclic(random, nodes, links, Reach::Near);
    let weights = Weights {
        lose: 1,
        wild: 1,
        ..EVEN
    };
    let count = random.between(100, 700);
    busy(random, &network, weights, count)
}

/// Networks up to the limits.
pub fn large(random: &mut Random) -> Vec<u8> {
    let nodes = random.between(40, NODES);
    let links = random.between(nodes, LINKS);
    let reach = random.pick(&[Reach::Near, Reach::Any]);
    let network = acyclic(random, nodes, links, reach);
    let count = random.between(300, 1500);
    busy(random, &network, EVEN, count)
}

/// Half of all links fail, most of them with packets on them.
pub fn failures(random: &mut Random) -> Vec<u8> {
    let nodes = random.between(3, 16);
    let links = random.between(nodes, 5 * nodes);
    let network = acyclic(random, nodes, links, Reach::Any);
    let weights = Weights {
        send: 16,
        fail: 5,
        ..EVEN
    };
    let count = random.between(40, 400);
    busy(random, &network, weights, count)
}

fn busy(random: &mut Random, network: &Network, weights: Weights, count: u32) -> Vec<u8> {
    let mut history = History::new(network);
    for _ in 0..count {
        history.step(random, weights);
    }
    history.bytes
}

/// Fills the flight, is refused, frees a few slots and sends again.
pub fn long(random: &mut Random) -> Vec<u8> {
    let nodes = random.between(3, 20);
    let links = random.between(nodes, 3 * nodes);
    let network = acyclic(random, nodes, links, Reach::Any);
    let mut history = History::new(&network);
    for _ in 0..random.between(2, 5) {
        fill(random, &mut history);
        for _ in 0..random.between(1, 60) {
            let weights = Weights {
                send: 2,
                deliver: 12,
                lose: 3,
                fail: 0,
                wild: 1,
            };
            history.step(random, weights);
        }
        if random.once_in(3) {
            let event = history.likely(random, 4);
            history.push(event);
        }
    }
    history.bytes
}

/// Sends until the flight is full (or it cannot be), then a few times more.
fn fill(random: &mut Random, history: &mut History) {
    for _ in 0..2 * PACKETS {
        if history.record.in_flight == PACKETS {
            break;
        }
        let event = history.likely(random, 1);
        history.push(event);
    }
    for _ in 0..4 {
        let node = random.draw(history.record.nodes);
        history.push(Event::Send { node });
    }
}

/// Events chosen without a look at the record; most are refused.
pub fn blind(random: &mut Random) -> Vec<u8> {
    let nodes = random.between(1, 6);
    let links = random.between(0, 8);
    let network = acyclic(random, nodes, links, Reach::Any);
    let mut history = History::new(&network);
    for _ in 0..random.between(0, 120) {
        let event = history.wild(random);
        history.push(event);
    }
    history.bytes
}

/// Headers that are refused: sizes, links, closed walks.
pub fn headers(random: &mut Random) -> Vec<u8> {
    let nodes = random.between(2, 10);
    let links = random.between(1, 12);
    let Network {
        mut nodes,
        mut destination,
        mut list,
    } = acyclic(random, nodes, links, Reach::Any);
    let links = list.len() as u32 / 2;
    let link = 2 * random.draw(links) as usize;
    match random.draw(9) {
        0 => nodes = random.pick(&[0, 65, 66, 127, 128, 16_384, 2_097_151]),
        1 => destination = nodes + random.pick(&[0, 1, 60, 200]),
        2 if !list.is_empty() => list[link + random.draw(2) as usize] = nodes,
        3 if !list.is_empty() => list[link] = list[link + 1],
        4 if !list.is_empty() => list[link] = random.pick(&[64, 128, 2_097_151]),
        5 | 6 if !list.is_empty() => list.extend([list[link + 1], list[link]]),
        7 => list = [0, 1].repeat(random.between(255, 258) as usize),
        _ => ring(random, nodes, &mut list),
    }
    let mut bytes = header_bytes(nodes, destination, &list);
    bytes.extend([1, 0, 1, 1]);
    bytes
}

/// Adds a closed walk through the first few nodes.
fn ring(random: &mut Random, nodes: u32, list: &mut Vec<u32>) {
    let size = random.between(2, nodes);
    for node in 0..size {
        list.extend([node, (node + 1) % size]);
    }
}

/// A good file to be damaged.
fn good(random: &mut Random) -> Vec<u8> {
    let nodes = random.between(2, 8);
    let links = random.between(1, 12);
    let network = acyclic(random, nodes, links, Reach::Any);
    let weights = Weights { wild: 8, ..EVEN };
    let count = random.between(5, 60);
    busy(random, &network, weights, count)
}

/// One value of a good file is replaced by a spoilt one, or one put between.
pub fn damage(random: &mut Random) -> Vec<u8> {
    let bytes = good(random);
    let starts = value_starts(&bytes);
    let at = random.pick(&starts);
    let spoilt: &[u8] = random.pick(&[
        &[0x80, 0x00][..],
        &[0x81, 0x00],
        &[0x84, 0x80, 0x00],
        &[0xFF, 0xFF, 0x00],
        &[0xFF, 0xFF, 0xFF, 0x01],
        &[0x80, 0x80, 0x80, 0x80],
        &[0x80, 0x01],
        &[0xFF, 0xFF, 0x7F],
        &[0x00],
        &[0x05],
        &[0x7F],
    ]);
    let mut made = bytes[..at].to_vec();
    made.extend_from_slice(spoilt);
    let next = match random.draw(3) {
        0 => at,
        1 => starts.iter().copied().find(|&s| s > at).unwrap_or(at),
        _ => bytes.len(),
    };
    made.extend_from_slice(&bytes[next..]);
    made
}

/// The offset of each value's first byte in a good file.
fn value_starts(bytes: &[u8]) -> Vec<usize> {
    let mut starts = Vec::new();
    let mut at = 0;
    while at < bytes.len() {
        starts.push(at);
        at = number::read(bytes, at).map_or(bytes.len(), |(_, next)| next);
    }
    starts
}

/// One to four bits of a good file flipped.
pub fn flips(random: &mut Random) -> Vec<u8> {
    let mut bytes = good(random);
    for _ in 0..random.between(1, 4) {
        let at = random.draw(bytes.len() as u32) as usize;
        bytes[at] ^= 1 << random.draw(8);
    }
    bytes
}

/// A good file cut anywhere.
pub fn cuts(random: &mut Random) -> Vec<u8> {
    let mut bytes = good(random);
    let length = random.draw(bytes.len() as u32 + 1) as usize;
    bytes.truncate(length);
    bytes
}

/// Bytes of any value.
pub fn noise(random: &mut Random) -> Vec<u8> {
    let count = random.between(0, 40);
    (0..count)
        .map(|_| match random.draw(3) {
            0 => random.draw(256) as u8,
            _ => random.draw(6) as u8,
        })
        .collect()
}

/// Files of 65,535 to 65,537 bytes.
pub fn size(random: &mut Random) -> Vec<u8> {
    let nodes = random.between(3, 10);
    let links = random.between(nodes, 2 * nodes);
    let network = acyclic(random, nodes, links, Reach::Any);
    let mut history = History::new(&network);
    let weights = Weights {
        fail: 0,
        wild: 0,
        ..EVEN
    };
    while history.bytes.len() < FILE {
        history.step(random, weights);
    }
    let mut bytes = history.bytes;
    let length = random.pick(&[FILE - 1, FILE, FILE, FILE + 1]);
    bytes.resize(length, 1);
    bytes
}
