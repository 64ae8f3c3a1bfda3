//! Part `open`: openings from lists.

use crate::calls::{sum, HUGE};
use crate::opening::open;
use crate::random::Random;

/// One opening: the list's length is that of the vector.
pub struct Case {
    pub nodes: u32,
    pub destination: u32,
    pub list: Vec<u32>,
}

/// Nodes, destination, length of the list, modulus, index, value.
pub const ROWS: [[u32; 6]; 64] = [
    // Node counts.
    [0, 0, 0, 0, 999, 0],
    [1, 0, 0, 0, 999, 0],
    [2, 0, 0, 0, 999, 0],
    [63, 0, 0, 0, 999, 0],
    [64, 0, 0, 0, 999, 0],
    [65, 0, 0, 0, 999, 0],
    [1000, 0, 0, 0, 999, 0],
    [HUGE, 0, 0, 0, 999, 0],
    [0, 0, 2, 0, 999, 0],
    [65, 0, 2, 0, 999, 0],
    [HUGE, 0, 2, 0, 999, 0],
    // Destinations.
    [1, 1, 0, 0, 999, 0],
    [3, 2, 0, 0, 999, 0],
    [3, 3, 0, 0, 999, 0],
    [3, 4, 2, 0, 999, 0],
    [64, 63, 2, 0, 999, 0],
    [64, 64, 2, 0, 999, 0],
    [65, 64, 2, 0, 999, 0],
    [3, 1000, 2, 0, 999, 0],
    [3, HUGE, 2, 0, 999, 0],
    // Lengths.
    [1, 0, 1, 0, 999, 0],
    [2, 0, 1, 0, 999, 0],
    [2, 0, 2, 0, 999, 0],
    [2, 0, 3, 0, 999, 0],
    [2, 0, 4, 0, 999, 0],
    [2, 1, 510, 0, 999, 0],
    [2, 1, 511, 0, 999, 0],
    [2, 1, 512, 0, 999, 0],
    [2, 1, 513, 0, 999, 0],
    [2, 1, 514, 0, 999, 0],
    [2, 1, 515, 0, 999, 0],
    // Links that name no node.
    [1, 0, 2, 0, 999, 0],
    [3, 0, 6, 0, 0, 3],
    [3, 0, 6, 0, 1, 3],
    [3, 0, 6, 0, 2, 64],
    [3, 0, 6, 0, 3, 1000],
    [3, 0, 6, 0, 4, HUGE],
    [3, 0, 6, 0, 5, HUGE],
    [3, 0, 6, 0, 5, 2],
    [64, 0, 6, 0, 5, 63],
    [64, 0, 6, 0, 5, 64],
    [2, 0, 512, 0, 511, 2],
    [2, 0, 512, 0, 510, HUGE],
    // Links that join a node to itself.
    [1, 0, 2, 0, 1, 0],
    [3, 0, 6, 0, 0, 1],
    [3, 0, 6, 0, 3, 0],
    [3, 0, 6, 0, 4, 1],
    [2, 0, 512, 0, 511, 0],
    [3, 0, 5, 0, 3, 0],
    // Closed walks, and walks that do not close.
    [2, 0, 2, 2, 999, 0],
    [2, 0, 4, 2, 999, 0],
    [3, 0, 4, 3, 999, 0],
    [3, 0, 6, 3, 999, 0],
    [3, 0, 6, 3, 5, 1],
    [4, 3, 6, 3, 999, 0],
    [4, 0, 6, 4, 5, 1],
    [4, 0, 6, 4, 4, 0],
    [64, 63, 126, 64, 999, 0],
    [64, 63, 128, 64, 999, 0],
    [64, 63, 126, 64, 125, 0],
    [64, 63, 126, 64, 125, 62],
    [64, 63, 510, 64, 999, 0],
    [3, 0, 8, 3, 7, 0],
    [3, 1, 8, 3, 7, 3],
];

/// "The list of a row."
pub fn of_row(row: &[u32; 6]) -> Case {
    let [nodes, destination, length, modulus, index, value] = *row;
    let mut list: Vec<u32> = (0..length)
        .map(|i| match modulus {
            0 => i % 2,
            m => (i / 2 + i % 2) % m,
        })
        .collect();
    if let Some(entry) = list.get_mut(index as usize) {
        *entry = value;
    }
    Case {
        nodes,
        destination,
        list,
    }
}

/// A drawn opening: acyclic arrows along a drawn order, then trouble.
pub fn drawn(random: &mut Random) -> Case {
    let nodes = 2 + random.draw(63);
    let destination = match random.draw(16) {
        0 => nodes,
        _ => random.draw(nodes),
    };
    let links = 1 + random.draw(60);
    let mut order: Vec<u32> = (0..nodes).collect();
    for i in (1..nodes).rev() {
        let with = random.draw(i + 1);
        order.swap(i as usize, with as usize);
    }
    let mut list = Vec::new();
    for _ in 0..links {
        let p = random.draw(nodes);
        let q = (p + 1 + random.draw(nodes - 1)) % nodes;
        list.push(order[p.min(q) as usize]);
        list.push(order[p.max(q) as usize]);
    }
    trouble(random, nodes, &mut list);
    Case {
        nodes,
        destination,
        list,
    }
}

fn trouble(random: &mut Random, nodes: u32, list: &mut Vec<u32>) {
    let kind = random.draw(8);
    let first = 2 * random.draw(list.len() as u32 / 2) as usize;
    let side = random.draw(2) as usize;
    match kind {
        0 => list.swap(first, first + 1),
        1 => list[first..].chunks_exact_mut(2).for_each(|l| l.swap(0, 1)),
        2 => list[first + side] = nodes,
        3 => list[first + side] = list[first + 1 - side],
        4 => {
            list.pop();
        }
        _ => {}
    }
}

pub fn part(random: &mut Random, text: &mut String) {
    for row in &ROWS {
        line(&of_row(row), text);
    }
    for _ in 0..120 {
        line(&drawn(random), text);
    }
}

fn line(case: &Case, text: &mut String) {
    let opening = open(case.nodes, case.destination, &case.list);
    text.push_str(&format!(
        "o {} {} {} {} {} {}\n",
        case.nodes,
        case.destination,
        case.list.len(),
        opening.answer,
        opening.place,
        sum::of_record(&opening.record)
    ));
}
