//! The ways a record is spoilt, numbered as in docs/CALLS.md. Some of them
//! leave it well formed: they are the good side of a bound.

use crate::calls::{FAR, HUGE};
use crate::limits::{EVENTS, LINKS, NODES, PACKETS};
use crate::random::Random;
use crate::record::{Direction, End, Link, Record};

pub const SPOILS: u32 = 94;

/// A record and the counts it was built with.
pub struct Base {
    pub nodes: u32,
    pub links: u32,
    pub in_flight: u32,
    pub record: Record,
}

/// What was drawn for the spoiling: a link and a side, a packet, a node.
struct Drawn {
    k: usize,
    e: usize,
    j: usize,
    v: usize,
}

pub fn spoil(random: &mut Random, base: &mut Base, number: u32) {
    let drawn = Drawn {
        k: random.draw(base.links) as usize,
        e: random.draw(2) as usize,
        j: random.draw(base.in_flight) as usize,
        v: random.draw(base.nodes) as usize,
    };
    match number {
        1..=13 => spoil_nodes(base, number),
        14..=29 => spoil_sizes(base, number),
        30..=41 => spoil_end(base, &drawn, number),
        42..=49 => spoil_found_end(base, &drawn, number),
        50..=54 => spoil_turns(base, &drawn, number),
        55..=68 => spoil_packet(base, &drawn, number),
        69..=79 => spoil_events(&mut base.record, number),
        80..=90 => spoil_places(&mut base.record, number),
        91..=93 => spoil_unused(base, number),
        _ => {}
    }
}

fn spoil_nodes(base: &mut Base, number: u32) {
    let n = base.nodes;
    let r = &mut base.record;
    match number {
        1 => r.nodes = 0,
        2 => r.nodes = n + 1,
        3 => r.nodes = NODES,
        4 => r.nodes = NODES + 1,
        5 => r.nodes = 1000,
        6 => r.nodes = HUGE,
        7 => r.nodes = r.destination,
        8 => r.nodes = r.destination + 1,
        9 => r.destination = n - 1,
        10 => r.destination = n,
        11 => r.destination = NODES,
        12 => r.destination = 1000,
        _ => r.destination = HUGE,
    }
}

fn spoil_sizes(base: &mut Base, number: u32) {
    let (l, f) = (base.links, base.in_flight);
    let r = &mut base.record;
    match number {
        14 => r.links = less_one(l),
        15 => r.links = l + 1,
        16 => r.links = 0,
        17 => r.links = LINKS,
        18 => r.links = LINKS + 1,
        19 => r.links = 1000,
        20 => r.links = 2_147_483_648,
        21 => r.links = HUGE,
        22 => r.in_flight = less_one(f),
        23 => r.in_flight = f + 1,
        24 => r.in_flight = 0,
        25 => r.in_flight = PACKETS,
        26 => r.in_flight = PACKETS + 1,
        27 => r.in_flight = 1000,
        28 => r.in_flight = HUGE,
        _ => {
            r.in_flight = f + 1;
            r.admitted += 1;
            r.events += 1;
        }
    }
}

fn less_one(value: u32) -> u32 {
    value.max(1) - 1
}

fn spoil_end(base: &mut Base, drawn: &Drawn, number: u32) {
    let n = base.nodes;
    let link = &mut base.record.link[drawn.k];
    let other = link.ends[1 - drawn.e].node;
    let end = &mut link.ends[drawn.e];
    match number {
        30 => end.node = 0,
        31 => end.node = n - 1,
        32 => end.node = n,
        33 => end.node = NODES,
        34 => end.node = other,
        35 => end.node = 1000,
        36 => end.node = FAR,
        37 => link.live = !link.live,
        38 => {
            end.direction = match end.direction {
                Direction::In => Direction::Out,
                Direction::Out => Direction::In,
            }
        }
        39 => end.local = !end.local,
        40 => end.remote = !end.remote,
        _ => end.mark = !end.mark,
    }
}

/// Whether an end is one that the numbers 42 to 49 look for.
fn wanted(number: u32, link: &Link, end: &End) -> bool {
    let is_in = end.direction == Direction::In;
    match number {
        42 | 43 | 48 => end.mark,
        44 => link.live && is_in && !end.mark,
        45 => link.live && !is_in,
        46 => !link.live && is_in,
        47 => !link.live && !is_in,
        _ => !link.live,
    }
}

/// The first wanted end from the drawn one upward, round the end of the lanes.
fn found(base: &Base, drawn: &Drawn, number: u32) -> Option<(usize, usize)> {
    let lanes = 2 * base.links as usize;
    let start = 2 * drawn.k + drawn.e;
    for i in 0..lanes {
        let lane = (start + i) % lanes;
        let link = &base.record.link[lane / 2];
        if wanted(number, link, &link.ends[lane % 2]) {
            return Some((lane / 2, lane % 2));
        }
    }
    None
}

fn spoil_found_end(base: &mut Base, drawn: &Drawn, number: u32) {
    let Some((k, e)) = found(base, drawn, number) else {
        return;
    };
    let link = &mut base.record.link[k];
    match number {
        42 => link.ends[e].direction = Direction::Out,
        43 => link.ends[e].mark = false,
        44..=47 => link.ends[e].mark = true,
        48 => link.live = false,
        _ => link.live = true,
    }
}

fn spoil_turns(base: &mut Base, drawn: &Drawn, number: u32) {
    let events = base.record.events;
    base.record.turns[drawn.v] = match number {
        50 => 0,
        51 => events,
        52 => events + 1,
        53 => EVENTS,
        _ => HUGE,
    };
}

fn spoil_packet(base: &mut Base, drawn: &Drawn, number: u32) {
    let lanes = 2 * base.links;
    let admitted = base.record.admitted;
    let down = found(base, drawn, 49).map(|(k, e)| (2 * k + e) as u32);
    let packet = &mut base.record.flight[drawn.j];
    match number {
        55 => packet.number = 0,
        56 => packet.number = less_one(admitted),
        57 => packet.number = admitted,
        58 => packet.number = EVENTS,
        59 => packet.number = HUGE,
        60 => packet.lane = 0,
        61 => packet.lane = lanes - 1,
        62 => packet.lane = lanes,
        63 => packet.lane = down.unwrap_or(packet.lane),
        64 => packet.lane = 2 * LINKS,
        65 => packet.lane = 1000,
        66 => packet.lane = FAR,
        67 => packet.bit = !packet.bit,
        _ => {
            let link = packet.lane as usize / 2;
            base.record.link[link].live = false;
        }
    }
}

fn spoil_events(r: &mut Record, number: u32) {
    match number {
        69 => r.events = r.admitted,
        70 => r.events = less_one(r.admitted),
        71 => r.events = 0,
        72 => r.events = EVENTS - 1,
        73 => r.events = EVENTS,
        74 => r.events = EVENTS + 1,
        75 => r.events = HUGE,
        76 => r.admitted += 1,
        77 => r.admitted = less_one(r.admitted),
        78 => r.admitted = 0,
        _ => r.admitted = HUGE,
    }
}

fn spoil_places(r: &mut Record, number: u32) {
    match number {
        80 => r.delivered += 1,
        81 => r.delivered = less_one(r.delivered),
        82 => r.delivered = HUGE,
        83 => r.lost += 1,
        84 => r.lost = less_one(r.lost),
        85 => r.lost = HUGE,
        86 => r.stranded += 1,
        87 => r.stranded = less_one(r.stranded),
        88 => r.stranded = HUGE,
        89 => {
            r.admitted += 1;
            r.delivered += 1;
        }
        _ => {
            r.lost += r.delivered + 1;
            r.delivered = HUGE;
        }
    }
}

/// The entry just past those used "may hold anything".
fn spoil_unused(base: &mut Base, number: u32) {
    let r = &mut base.record;
    match number {
        91 => {
            if let Some(turns) = r.turns.get_mut(base.nodes as usize) {
                *turns = HUGE;
            }
        }
        92 => {
            if let Some(link) = r.link.get_mut(base.links as usize) {
                link.ends[0].node = FAR;
                link.ends[1].mark = true;
            }
        }
        _ => {
            if let Some(packet) = r.flight.get_mut(base.in_flight as usize) {
                packet.number = HUGE;
                packet.lane = FAR;
            }
        }
    }
}
