//! The header of a file, and the record that it opens.

use crate::flight::Flight;
use crate::net::{lane_of, place_of, Net, MARK, NONE, OUT};
use crate::reader::number;

/// The record and the position after the header, or the answer and the place.
pub fn open<F: Flight>(file: &[u8]) -> Result<(Net<F>, usize), (u32, usize)> {
    let take = |at| number(file, at).ok_or((11, at.min(file.len())));
    let (nodes, at) = take(0)?;
    let (destination, at) = take(at)?;
    let (links, mut at) = take(at)?;
    if !(1..=64).contains(&nodes) || destination >= nodes || links > 256 {
        return Err((2, 0));
    }
    let mut list = [0; 512];
    for entry in &mut list[..2 * links] {
        (*entry, at) = take(at)?;
    }
    let list = &list[..2 * links];
    for (place, link) in list.chunks_exact(2).enumerate() {
        if link[0] >= nodes || link[1] >= nodes || link[0] == link[1] {
            return Err((3, place));
        }
    }
    let net = opened(nodes, destination, list);
    if closed(&net) {
        return Err((4, 0));
    }
    Ok((net, at))
}

/// The record of a list whose links are good.
fn opened<F: Flight>(nodes: usize, destination: usize, list: &[usize]) -> Net<F> {
    let mut net = Net {
        nodes,
        destination,
        links: list.len() / 2,
        // A link of the two first nodes is well formed wherever there are links.
        node: std::array::from_fn(|x| list.get(lane_of(x)).map_or((x / 256) as u8, |&v| v as u8)),
        flags: std::array::from_fn(|x| match (lane_of(x) < list.len(), x / 256) {
            (true, 0) => OUT,
            (true, _) => MARK,
            _ => 0,
        }),
        ends: [0; 512],
        place: [0; 512],
        start: [0; 65],
        first: [NONE; 64],
        alive: [0; 64],
        turns: [0; 64],
        flight: F::new(),
        events: 0,
        admitted: 0,
        delivered: 0,
        lost: 0,
        stranded: 0,
        down: 0,
    };
    line_up(&mut net, list);
    net
}

/// Each node's ends in a row, and the lowest that is Out.
fn line_up<F>(net: &mut Net<F>, list: &[usize]) {
    for &v in list {
        net.start[v + 1] += 1;
        net.alive[v] += 1;
    }
    for v in 0..64 {
        net.start[v + 1] += net.start[v];
    }
    let mut next = net.start;
    for (lane, &v) in list.iter().enumerate() {
        let x = place_of(lane);
        let place = next[v];
        next[v] += 1;
        net.ends[usize::from(place)] = x as u16;
        net.place[x] = place;
        if x < 256 && net.first[v] == NONE {
            net.first[v] = x as u16;
        }
    }
}

/// Takes away nodes that no arrow of those left reaches; a closed walk stays.
fn closed<F>(net: &Net<F>) -> bool {
    let mut into = [0u16; 64];
    for &head in &net.node[256..256 + net.links] {
        into[usize::from(head)] += 1;
    }
    let mut free: Vec<usize> = (0..net.nodes).filter(|&v| into[v] == 0).collect();
    let mut gone = 0;
    while let Some(v) = free.pop() {
        gone += 1;
        for &x in &net.ends[net.start[v].into()..net.start[v + 1].into()] {
            if x < 256 {
                let head = usize::from(net.node[usize::from(x) + 256]);
                into[head] -= 1;
                if into[head] == 0 {
                    free.push(head);
                }
            }
        }
    }
    gone < net.nodes
}
