//! The named edges: "Both sides of each edge", "Others", and the order of
//! answers, as far as a file can express them. (Event 1,000,001 and answer 10
//! are beyond any file.)

use crate::limits::{FILE, LINKS, PACKETS};
use crate::make::history::header_bytes;

/// An edge's name and its file.
pub type Edge = (&'static str, Vec<u8>);

pub fn all() -> Vec<Edge> {
    let mut edges = openings();
    edges.extend(numbers());
    edges.extend(spoilt_headers());
    edges.extend(spoilt_events());
    edges.extend(arguments());
    edges.extend(stories());
    edges.extend(full_flights());
    edges.extend(sizes());
    edges
}

pub fn named(name: &str) -> Option<Vec<u8>> {
    all()
        .into_iter()
        .find(|(known, _)| *known == name)
        .map(|(_, bytes)| bytes)
}

/// A header and events, all of them numbers below 128.
fn file(nodes: u32, destination: u32, list: &[u32], events: &[u8]) -> Vec<u8> {
    let mut bytes = header_bytes(nodes, destination, list);
    bytes.extend_from_slice(events);
    bytes
}

fn openings() -> Vec<Edge> {
    let parallel = |links: u32| [0, 1].repeat(links as usize);
    let chain: Vec<u32> = (0..63).flat_map(|node| [node, node + 1]).collect();
    let ring = [&chain[..], &[63, 0]].concat();
    vec![
        ("p1-one-node", file(1, 0, &[], &[1, 0])),
        ("p1-no-node", file(0, 0, &[], &[1, 0])),
        ("p2-64-nodes", file(64, 63, &[], &[1, 63, 1, 64])),
        ("p2-65-nodes", file(65, 0, &[], &[1, 0])),
        ("p3-destination-last", file(3, 2, &[], &[1, 2])),
        ("p3-destination-is-count", file(3, 3, &[], &[1, 2])),
        ("p4-self-link", file(3, 0, &[1, 1], &[1, 1])),
        ("p4-second-link-self", file(3, 0, &[0, 1, 2, 2], &[])),
        ("p4-last-node", file(3, 0, &[1, 2], &[1, 1])),
        ("p4-names-no-node", file(3, 0, &[0, 1, 1, 3], &[])),
        ("p5-two-ring", file(2, 0, &[0, 1, 1, 0], &[1, 1])),
        ("p5-parallel", file(2, 0, &[0, 1, 0, 1], &[1, 1])),
        ("p5-three-ring", file(3, 0, &[0, 1, 1, 2, 2, 0], &[])),
        ("p5-three-chain", file(3, 0, &[0, 1, 1, 2, 0, 2], &[])),
        ("p5-64-chain", file(64, 0, &chain, &[1, 63])),
        ("p5-64-ring", file(64, 0, &ring, &[1, 63])),
        ("p5-ring-apart", file(4, 0, &[0, 1, 2, 3, 3, 2], &[])),
        ("256-links", file(2, 0, &parallel(LINKS), &[1, 1])),
        ("257-links", file(2, 0, &parallel(LINKS + 1), &[1, 1])),
        ("257-links-cut", vec![2, 0, 0x81, 0x02]),
        ("256-links-cut", vec![2, 0, 0x80, 0x02]),
        ("order-2-before-3", file(65, 0, &[1, 1], &[])),
        ("order-3-before-4", file(3, 0, &[0, 1, 1, 0, 2, 2], &[])),
        ("order-3-first-link", file(3, 0, &[0, 3, 1, 1], &[])),
    ]
}

/// P6 and P7, as arguments and in the header.
fn numbers() -> Vec<Edge> {
    let send = |argument: &[u8]| [&[1, 0, 0, 1][..], argument, &[1, 0]].concat();
    vec![
        ("p6-127", send(&[0x7F])),
        ("p6-128", send(&[0x80, 0x01])),
        ("p6-16383", send(&[0xFF, 0x7F])),
        ("p6-16384", send(&[0x80, 0x80, 0x01])),
        ("p7-80-00", send(&[0x80, 0x00])),
        ("p7-80-80-00", send(&[0x80, 0x80, 0x00])),
        ("p7-ff-ff-7f", send(&[0xFF, 0xFF, 0x7F])),
        ("p7-ff-ff-ff-01", send(&[0xFF, 0xFF, 0xFF, 0x01])),
        ("p7-header-nodes", vec![0x82, 0x00, 0, 0]),
        ("p7-header-destination", vec![2, 0x80, 0x00, 0]),
        ("p7-header-links", vec![2, 0, 0xFF, 0xFF, 0xFF, 0x01]),
        ("p7-header-largest", vec![0xFF, 0xFF, 0x7F, 0, 0]),
    ]
}

fn spoilt_headers() -> Vec<Edge> {
    vec![
        ("empty", vec![]),
        ("header-1-byte", vec![2]),
        ("header-2-bytes", vec![2, 1]),
        ("header-cut-inside", vec![2, 1, 0x81]),
        ("header-links-missing", vec![2, 1, 1]),
        ("header-link-half", vec![2, 1, 1, 0]),
        ("header-link-cut", vec![2, 1, 1, 0, 0x81]),
        ("header-whole", vec![2, 1, 1, 0, 1]),
        ("order-11-before-2", vec![65, 0, 0x80]),
        ("order-11-before-2-missing", vec![0, 9]),
        ("order-2-before-link-11", vec![65, 0, 1, 0x80, 0]),
        ("order-2-before-missing-links", vec![2, 2, 1]),
        ("order-link-11-before-3", vec![3, 0, 2, 1, 1, 0]),
        ("order-link-11-before-4", vec![3, 0, 3, 0, 1, 1, 0, 0x80, 0]),
    ]
}

fn spoilt_events() -> Vec<Edge> {
    let after = |tail: &[u8]| [&[2, 0, 1, 1, 0, 1, 1][..], tail].concat();
    vec![
        ("kind-0", after(&[0, 1, 1, 1])),
        ("kind-5", after(&[5, 1, 1, 1])),
        ("kind-128", after(&[0x80, 0x01, 1, 1])),
        ("kind-not-shortest", after(&[0x81, 0x00, 1])),
        ("kind-fourth-byte", after(&[0x81, 0x80, 0x80, 0x80, 0])),
        ("kind-cut", after(&[0x81])),
        ("kind-5-alone", after(&[5])),
        ("argument-missing", after(&[1])),
        ("argument-cut", after(&[1, 0x81])),
        ("argument-cut-at-two", after(&[2, 0x81, 0x82])),
        ("whole", after(&[])),
    ]
}

/// Both sides of each argument, and answers 7 and 8.
fn arguments() -> Vec<Edge> {
    let list = [1, 0, 2, 1];
    let on = |events: &[u8]| file(3, 0, &list, events);
    vec![
        ("send-last-node", on(&[1, 2])),
        ("send-no-node", on(&[1, 3])),
        ("deliver-last-lane", on(&[1, 2, 2, 3, 2, 2])),
        ("deliver-no-lane", on(&[1, 2, 2, 4])),
        ("lose-last-lane", on(&[1, 2, 3, 3, 3, 2])),
        ("lose-no-lane", on(&[1, 2, 3, 4])),
        ("fail-last-link", on(&[4, 1, 4, 1])),
        ("fail-no-link", on(&[4, 2])),
        ("down-7-before-8", on(&[1, 1, 4, 0, 2, 0, 3, 0, 2, 1, 3, 1])),
        ("empty-lanes-8", on(&[2, 0, 3, 0, 2, 1, 3, 1])),
    ]
}

/// Node 1: link 0 In and marked, link 1 turned In by news of node 2.
fn partial_turn() -> Vec<u8> {
    let events = [1, 2, 2, 3, 2, 1, 2, 0, 1, 1, 1, 2, 2, 3, 2, 2, 2, 1];
    file(4, 0, &[3, 1, 1, 2, 3, 0], &events)
}

/// Node 1: links 0 and 1 Out at opening, turned In by 2 and by 3.
fn all_turn() -> Vec<u8> {
    let events = [4, 2, 1, 2, 1, 3, 2, 1, 2, 3, 2, 0, 2, 2, 2, 1, 2, 3];
    file(4, 0, &[1, 2, 1, 3, 2, 0], &events)
}

fn d1() -> Vec<u8> {
    let events = [4, 2, 1, 1, 1, 2, 2, 0, 2, 1, 2, 1, 2, 2, 2, 2, 2, 2];
    file(3, 0, &[1, 2, 1, 0, 2, 0], &events)
}

/// P8, P10 to P12, and the destination, which never turns.
fn stories() -> Vec<Edge> {
    let all_in = [1, 0, 1, 1, 2, 0, 1, 0, 1, 2, 2, 2];
    let news = [1, 1, 1, 1, 2, 1, 2, 1, 1, 1, 2, 1];
    vec![
        ("p8-lone-node", file(2, 0, &[], &[1, 1, 1, 0])),
        ("p8-all-failed", file(2, 0, &[1, 0], &[1, 1, 4, 0, 1, 1])),
        ("p10-partial-turn", partial_turn()),
        ("p11-all-turn", all_turn()),
        ("p12-d1", d1()),
        ("destination-all-in", file(3, 0, &[1, 0, 2, 0], &all_in)),
        ("destination-takes-news", file(2, 0, &[0, 1], &news)),
    ]
}

/// P9: sends with 256 in flight, and after a slot has come free.
fn full_flights() -> Vec<Edge> {
    let full = |tail: &[u8]| {
        let mut bytes = file(4, 0, &[1, 0, 2, 1], &[]);
        for _ in 0..PACKETS {
            bytes.extend([1, 1]);
        }
        bytes.extend_from_slice(tail);
        bytes
    };
    vec![
        ("p9-linked", full(&[1, 1, 1, 2])),
        ("p9-destination", full(&[1, 0, 1, 1])),
        ("p9-lone", full(&[1, 3, 1, 1])),
        ("p9-no-node", full(&[1, 4])),
        ("p9-after-delivery", full(&[2, 0, 1, 2, 1, 2])),
        ("p9-after-loss", full(&[3, 0, 1, 1, 1, 1])),
        ("p9-after-failure", full(&[4, 0, 1, 1, 1, 2])),
        ("p9-full-deliver", full(&[2, 0, 1, 2, 2, 2, 2, 0, 1, 1])),
    ]
}

/// A file of exactly so many bytes: sends at a lone destination.
fn of_length(length: usize) -> Vec<u8> {
    let mut bytes = vec![1, 0, 0];
    while bytes.len() + 2 <= length {
        bytes.extend([1, 0]);
    }
    bytes.resize(length, 1);
    bytes
}

fn sizes() -> Vec<Edge> {
    vec![
        ("size-65535", of_length(FILE - 1)),
        ("size-65536", of_length(FILE)),
        ("size-65537", of_length(FILE + 1)),
        ("size-65537-bad", vec![0; FILE + 1]),
        ("size-65536-bad", vec![0; FILE]),
    ]
}
