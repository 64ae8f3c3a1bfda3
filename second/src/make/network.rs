//! Random acyclic networks with parallel links and lone nodes.

use crate::random::Random;

pub struct Network {
    pub nodes: u32,
    pub destination: u32,
    pub list: Vec<u32>,
}

/// How far apart in the order the two nodes of a link may stand. Near ones
/// make long distances and many turns.
#[derive(Clone, Copy)]
pub enum Reach {
    Near,
    Any,
}

/// Arrows go from earlier to later nodes of a random order, so there is no
/// closed walk. The last few of the order are left alone.
pub fn acyclic(random: &mut Random, nodes: u32, links: u32, reach: Reach) -> Network {
    let order = shuffled(random, nodes);
    let lone = if nodes > 4 && random.once_in(3) {
        random.between(1, nodes / 3)
    } else {
        0
    };
    let linked = nodes - lone;
    let mut list = Vec::new();
    if linked >= 2 {
        for _ in 0..links {
            let (from, to) = pair(random, linked, reach, &order, &list);
            list.extend([from, to]);
        }
    }
    let destination = destination(random, &order, linked);
    Network {
        nodes,
        destination,
        list,
    }
}

/// Often an end of the order: first (all arrows lead away) or last (all lead
/// towards it).
fn destination(random: &mut Random, order: &[u32], linked: u32) -> u32 {
    match random.draw(6) {
        0 | 1 => order[0],
        2 => order[linked as usize - 1],
        3 | 4 => order[random.draw(linked) as usize],
        _ => order[random.draw(order.len() as u32) as usize],
    }
}

fn shuffled(random: &mut Random, nodes: u32) -> Vec<u32> {
    let mut order: Vec<u32> = (0..nodes).collect();
    for i in (1..nodes).rev() {
        order.swap(i as usize, random.draw(i + 1) as usize);
    }
    order
}

/// One link in eight runs beside an earlier one.
fn pair(random: &mut Random, linked: u32, reach: Reach, order: &[u32], list: &[u32]) -> (u32, u32) {
    if !list.is_empty() && random.once_in(8) {
        let beside = 2 * random.draw(list.len() as u32 / 2) as usize;
        return (list[beside], list[beside + 1]);
    }
    let widest = match reach {
        Reach::Near => 2.min(linked - 1),
        Reach::Any => linked - 1,
    };
    let step = random.between(1, widest);
    let first = random.draw(linked - step);
    (order[first as usize], order[(first + step) as usize])
}
