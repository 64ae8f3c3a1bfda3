//! Part `records`: records good and spoilt in one field, with events.

use crate::calls::spoil::{spoil, Base, SPOILS};
use crate::calls::{sum, HUGE};
use crate::events::{apply, Event};
use crate::formed::formed;
use crate::random::Random;
use crate::record::{Direction, End, Link, Packet, Record};
use crate::text::outcome_words;

/// The shapes of the good records, gone through so many times.
const GOOD_SHAPES: [u32; 8] = [0, 1, 2, 3, 0, 1, 4, 1];
const GOOD_ROUNDS: u32 = 5;
const GOOD_EVENTS: u32 = 16;
const SPOILT_SHAPES: u32 = 3;

pub fn part(random: &mut Random, text: &mut String) {
    for _ in 0..GOOD_ROUNDS {
        for shape in GOOD_SHAPES {
            good_record(random, shape, text);
        }
    }
    for shape in 0..SPOILT_SHAPES {
        for number in 0..SPOILS {
            let mut base = build(random, shape);
            spoil(random, &mut base, number);
            check_line(&base.record, shape, number, text);
            for kind in [1, 2, 3, 4, 2] {
                event_line(random, &mut base, kind, text);
            }
        }
    }
}

fn good_record(random: &mut Random, shape: u32, text: &mut String) {
    let mut base = build(random, shape);
    check_line(&base.record, shape, 0, text);
    for _ in 0..GOOD_EVENTS {
        let kind = random.pick(&[1, 1, 1, 2, 2, 2, 3, 4]);
        event_line(random, &mut base, kind, text);
    }
    check_line(&base.record, shape, 0, text);
}

fn sizes(random: &mut Random, shape: u32) -> (u32, u32, u32) {
    match shape {
        0 => {
            let nodes = 2 + random.draw(4);
            let links = 1 + random.draw(6);
            (nodes, links, random.draw(9))
        }
        1 => {
            let nodes = 2 + random.draw(30);
            let links = 1 + random.draw(40);
            (nodes, links, 1 + random.draw(40))
        }
        2 => (64, 256, 256),
        3 => (1, 0, 0),
        _ => (64, 20, 256),
    }
}

/// A well formed record, drawn field by field; no history need lead to it.
fn build(random: &mut Random, shape: u32) -> Base {
    let mut record = Record::lone();
    let (nodes, links, in_flight) = sizes(random, shape);
    record.nodes = nodes;
    record.links = links;
    record.in_flight = in_flight;
    record.destination = random.draw(nodes);
    let bias = 2 + random.draw(5);
    for k in 0..links {
        record.link[k as usize] = drawn_link(random, nodes, bias, k);
    }
    record.delivered = random.draw(50);
    record.lost = random.draw(50);
    record.stranded = random.draw(50);
    record.admitted = in_flight + record.delivered + record.lost + record.stranded;
    record.events = record.admitted + random.draw(4);
    for j in 0..in_flight {
        record.flight[j as usize] = drawn_packet(random, &record);
    }
    for v in 0..nodes {
        record.turns[v as usize] = random.draw(record.events + 1);
    }
    Base {
        nodes,
        links,
        in_flight,
        record,
    }
}

fn drawn_link(random: &mut Random, nodes: u32, bias: u32, k: u32) -> Link {
    let first = random.draw(nodes);
    let second = (first + 1 + random.draw(nodes - 1)) % nodes;
    let live = random.draw(8) != 0 || k == 0;
    let mut end = |node| {
        let out = random.draw(bias) == 0;
        let local = random.draw(2) == 1;
        let remote = random.draw(2) == 1;
        let mark = random.draw(2) == 1 && live && !out;
        let direction = if out { Direction::Out } else { Direction::In };
        End {
            node,
            direction,
            local,
            remote,
            mark,
        }
    };
    let ends = [end(first), end(second)];
    Link { ends, live }
}

fn drawn_packet(random: &mut Random, record: &Record) -> Packet {
    let lanes = 2 * record.links;
    let mut lane = random.draw(lanes);
    while !record.link[lane as usize / 2].live {
        lane = (lane + 2) % lanes;
    }
    let bit = random.draw(2) == 1;
    let number = random.draw(record.admitted);
    Packet { number, lane, bit }
}

/// An argument that is wild, any, or likely to apply.
fn argument(random: &mut Random, base: &Base, kind: u32) -> u32 {
    let (n, l) = (base.nodes, base.links);
    let how = random.draw(8);
    if how == 0 {
        return random.pick(&[n, 2 * l, l, 64, 256, 512, 1000, HUGE]);
    }
    let flight = base.record.used_flight();
    match kind {
        1 => random.draw(n),
        4 => random.draw(l + 1),
        _ if how == 1 || flight.is_empty() => random.draw(2 * l + 1),
        _ => random.pick(flight).lane,
    }
}

fn event_line(random: &mut Random, base: &mut Base, kind: u32, text: &mut String) {
    let argument = argument(random, base, kind);
    let Some(event) = Event::of(kind, argument) else {
        return;
    };
    line(&mut base.record, event, text);
}

/// The line of an event: letter, argument, outcome, checksum.
pub fn line(record: &mut Record, event: Event, text: &mut String) {
    let (kind, argument) = event.kind_and_argument();
    let letter = ["s", "d", "l", "f"][kind as usize - 1];
    let words = outcome_words(apply(record, event));
    let sum = sum::of_record(record);
    text.push_str(&format!("{letter} {argument} {words} {sum}\n"));
}

fn check_line(record: &Record, shape: u32, number: u32, text: &mut String) {
    let answer = u32::from(!formed(record));
    let sum = sum::of_record(record);
    text.push_str(&format!("c {shape} {number} {answer} {sum}\n"));
}
