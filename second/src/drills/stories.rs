//! Drills made by hand, each for one thing. Events are pairs, as in a file:
//! 1 send (node), 2 deliver (lane), 3 lose (lane), 4 fail (link).

use crate::drills::{stored, Stored};
use crate::events::Event;
use crate::limits::{LINKS, NODES, NUMBER, PACKETS};
use crate::make::history::{header_bytes, History};
use crate::make::network::Network;
use crate::number;

pub fn all() -> Vec<Stored> {
    let parts = [
        bounces(),
        news(),
        turns(),
        turns_of_one_node(),
        failures_under_packets(),
        failures_of_ends(),
        lanes(),
        flights(),
        large_networks(),
        all_kinds(),
        readings(),
    ];
    parts.into_iter().flatten().collect()
}

/// Destination 0, these links and these events.
fn of(nodes: u32, links: &[u32], events: &[u32]) -> Vec<u8> {
    let mut bytes = header_bytes(nodes, 0, links);
    for &value in events {
        number::push(&mut bytes, value);
    }
    bytes
}

/// The same, and then the oldest packet is delivered until none flies, at most
/// so many times: nodes cut off from the destination send for ever.
fn settled(nodes: u32, links: &[u32], events: &[u32], most: usize) -> Vec<u8> {
    let mut history = History::new(&Network {
        nodes,
        destination: 0,
        list: links.to_vec(),
    });
    for pair in events.chunks(2) {
        if let Some(event) = Event::of(pair[0], pair[1]) {
            history.push(event);
        }
    }
    for _ in 0..most {
        let Some(oldest) = history.record.used_flight().first() else {
            break;
        };
        let lane = oldest.lane;
        history.push(Event::Deliver { lane });
    }
    history.bytes
}

fn bounces() -> Vec<Stored> {
    let beside = [3, 2, 1, 2, 1, 0, 3, 0];
    vec![
        stored(
            "bounce-past-a-lower-link",
            "a bounce goes back on its own link, though a lower one is Out",
            settled(4, &beside, &[1, 1, 1, 2, 2, 2], 20),
        ),
        stored(
            "bounce-of-three",
            "three packets sent before the turn all bounce, in their order",
            settled(
                3,
                &[1, 2, 1, 0],
                &[1, 1, 1, 1, 1, 1, 1, 2, 2, 0, 2, 0, 2, 0],
                20,
            ),
        ),
        stored(
            "bounce-lost",
            "the packet with the news and a bounced one are lost, a third brings the news",
            settled(3, &[1, 2, 1, 0], &[1, 1, 1, 2, 2, 0, 3, 1, 3, 1, 1, 1], 20),
        ),
    ]
}

fn news() -> Vec<Stored> {
    let lone_pair = [1, 2];
    let two_ways = [1, 2, 1, 2, 1, 0];
    let chain = [0, 1, 1, 2];
    vec![
        stored(
            "news-and-out-the-same-link",
            "news takes the last Out end: a turn in the same event, out the way it came",
            settled(3, &lone_pair, &[1, 2], 6),
        ),
        stored(
            "news-on-one-of-two",
            "news on one of two links between the same nodes leaves the other",
            settled(3, &two_ways, &[1, 2, 2, 1, 1, 1, 1, 1], 20),
        ),
        stored(
            "news-once",
            "a second packet with the same new bit is no news",
            settled(3, &chain, &[1, 2, 1, 2, 2, 3, 2, 3], 20),
        ),
        stored(
            "news-and-loss",
            "the packet with the news is lost, the next one brings it",
            settled(3, &chain, &[1, 2, 1, 2, 3, 3, 1, 1], 20),
        ),
    ]
}

fn turns() -> Vec<Stored> {
    let away: Vec<u32> = (0..7).flat_map(|node| [node, node + 1]).collect();
    let zigzag = [1, 0, 1, 2, 3, 2, 3, 4, 5, 4, 5, 6, 7, 6];
    vec![
        stored(
            "turn-of-all-marked",
            "all ends In and marked at opening: the first turn takes all",
            settled(4, &[2, 1, 3, 1, 2, 0, 3, 0], &[1, 1, 1, 1], 20),
        ),
        stored(
            "turns-in-a-row",
            "all arrows lead away from the destination: each node turns in its turn",
            settled(8, &away, &[1, 7, 1, 6, 1, 3, 1, 7], 200),
        ),
        stored(
            "turns-of-a-zigzag",
            "arrows to and fro: nodes far from the destination turn twice",
            settled(8, &zigzag, &[1, 7, 1, 5, 1, 3, 1, 2, 1, 4, 1, 6], 300),
        ),
        stored(
            "turn-for-ever",
            "two nodes cut off from the destination turn again and again",
            settled(3, &[1, 2, 2, 0], &[4, 1, 1, 1], 60),
        ),
    ]
}

fn turns_of_one_node() -> Vec<Stored> {
    let outwards: Vec<u32> = (0..8).flat_map(|node| [1, node + 1]).collect();
    vec![
        stored(
            "turn-second-is-partial",
            "after a turn of some ends the next takes just the others",
            settled(
                4,
                &[3, 1, 1, 2, 3, 0],
                &[1, 2, 2, 3, 4, 2, 1, 1, 1, 2, 1, 3],
                40,
            ),
        ),
        stored(
            "turn-of-a-hub",
            "a hub whose seven neighbours turn one after the other",
            settled(
                9,
                &outwards[2..],
                &[1, 2, 1, 3, 1, 4, 1, 5, 1, 6, 1, 7, 1, 8],
                60,
            ),
        ),
        stored(
            "no-turn-at-the-destination",
            "the destination holds only In ends and sends nothing on",
            of(3, &[1, 0, 2, 0], &[1, 0, 1, 1, 1, 2, 2, 0, 2, 2, 1, 0]),
        ),
    ]
}

fn failures_under_packets() -> Vec<Stored> {
    let three = [1, 0, 2, 0, 3, 0];
    vec![
        stored(
            "failure-from-the-middle",
            "a failure takes packets from the middle, the others keep their order",
            settled(
                4,
                &three,
                &[1, 1, 1, 2, 1, 3, 1, 2, 1, 1, 1, 2, 1, 3, 4, 1, 2, 2],
                20,
            ),
        ),
        stored(
            "failure-from-both-ends",
            "a failure takes the oldest and the newest packet",
            settled(4, &three, &[1, 2, 1, 1, 1, 3, 1, 2, 4, 1], 20),
        ),
        stored(
            "failure-of-both-lanes",
            "a failure takes the packets of both lanes",
            settled(3, &[1, 2, 1, 0], &[1, 1, 1, 1, 1, 2, 4, 0, 1, 2, 1, 1], 20),
        ),
        stored(
            "failure-of-an-empty-link",
            "a failure that takes nothing is one event all the same",
            of(3, &[1, 0, 2, 0], &[4, 1, 4, 1, 1, 2, 1, 1, 2, 0]),
        ),
    ]
}

fn failures_of_ends() -> Vec<Stored> {
    vec![
        stored(
            "failure-clears-marks",
            "a marked end of a failed link does not turn",
            settled(4, &[2, 1, 3, 1, 2, 0, 3, 0], &[4, 0, 1, 1], 20),
        ),
        stored(
            "failure-of-the-last-mark",
            "the one marked end fails: no end is marked, so all live ends turn",
            settled(4, &[3, 1, 1, 2, 3, 0], &[1, 2, 4, 0, 2, 3], 9),
        ),
        stored(
            "failure-of-the-way-out",
            "an Out end of a failed link is no way out",
            settled(3, &[1, 0, 1, 2, 2, 0], &[1, 1, 4, 0, 1, 1], 20),
        ),
        stored(
            "failure-of-all",
            "links fail one by one until sends are stranded",
            of(
                3,
                &[1, 0, 1, 2, 2, 0],
                &[1, 1, 4, 0, 1, 1, 4, 1, 1, 1, 1, 2, 4, 2, 1, 2, 1, 0],
            ),
        ),
        stored(
            "failure-cuts-the-destination-off",
            "the destination still delivers what is sent there",
            settled(3, &[1, 0, 1, 2], &[4, 0, 1, 0, 1, 1], 12),
        ),
    ]
}

fn lanes() -> Vec<Stored> {
    vec![
        stored(
            "lane-oldest-delivered",
            "of a lane the oldest packet, not the oldest in flight",
            of(
                3,
                &[1, 0, 2, 0],
                &[1, 1, 1, 2, 1, 2, 2, 2, 2, 0, 2, 2, 2, 2],
            ),
        ),
        stored(
            "lane-oldest-lost",
            "a loss takes the oldest packet of the lane",
            of(
                3,
                &[1, 0, 2, 0],
                &[1, 1, 1, 2, 1, 1, 3, 0, 2, 0, 3, 0, 3, 2, 2, 2],
            ),
        ),
        stored(
            "lane-of-the-other-end",
            "the two lanes of a link are two",
            of(3, &[1, 2, 1, 0], &[1, 2, 1, 1, 3, 0, 2, 0, 3, 1, 2, 1]),
        ),
        stored(
            "lane-of-the-lowest-out-link",
            "out on the lowest live Out link, not the lowest link",
            of(
                4,
                &[3, 1, 1, 2, 1, 0, 2, 0],
                &[1, 1, 4, 1, 1, 1, 4, 2, 1, 1, 1, 3],
            ),
        ),
    ]
}

/// Node 1 sends until all slots are taken.
fn full(links: &[u32], before: &[u32], after: &[u32]) -> Vec<u8> {
    let sends = [1, 1].repeat(PACKETS as usize - before.len() / 2);
    of(4, links, &[before, &sends[..], after].concat())
}

fn flights() -> Vec<Stored> {
    let on = [1, 2, 1, 0, 3, 0];
    let mut round = vec![];
    for _ in 0..300 {
        round.extend([2, 0, 1, 1]);
    }
    vec![
        stored(
            "flight-full-bounce",
            "with 256 in flight a packet still bounces, and a send is 9",
            full(&on, &[1, 2], &[2, 0, 1, 1, 1, 3, 2, 1, 1, 0]),
        ),
        stored(
            "flight-slots-used-again",
            "300 times a slot comes free and is used again",
            full(&[1, 0, 2, 1], &[], &round),
        ),
        stored(
            "flight-two-failures",
            "two failures empty a full flight, packet by packet of each link",
            full(
                &[1, 0, 2, 0],
                &[1, 2, 1, 2],
                &[4, 1, 1, 1, 4, 0, 1, 1, 1, 2],
            ),
        ),
        stored(
            "flight-all-lost",
            "256 losses one after the other, and one more is 8",
            full(&[1, 0], &[], &[3, 0].repeat(PACKETS as usize + 1)),
        ),
    ]
}

fn large_networks() -> Vec<Stored> {
    let towards: Vec<u32> = (1..NODES).flat_map(|node| [node, 0]).collect();
    let away: Vec<u32> = (1..NODES).flat_map(|node| [0, node]).collect();
    let chain: Vec<u32> = (1..NODES).flat_map(|node| [node - 1, node]).collect();
    let sends: Vec<u32> = (0..NODES).flat_map(|node| [1, node]).collect();
    let beside = [0, 1].repeat(LINKS as usize);
    let mut spent: Vec<u32> = (0..LINKS).flat_map(|link| [1, 1, 4, link]).collect();
    spent.extend([1, 1, 4, LINKS, 2, 2 * LINKS - 1, 2, 2 * LINKS]);
    vec![
        stored(
            "star-towards",
            "63 nodes send straight to the destination",
            settled(NODES, &towards, &sends, 200),
        ),
        stored(
            "star-away",
            "63 nodes turn and bring the destination their news",
            settled(NODES, &away, &sends, 200),
        ),
        stored(
            "chain-of-64",
            "the farthest node sends along 63 links that lead away",
            settled(NODES, &chain, &[1, 63, 1, 63], 9000),
        ),
        stored(
            "256-links-spent",
            "each of 256 links between two nodes is used and fails",
            of(2, &beside, &spent),
        ),
    ]
}

fn all_kinds() -> Vec<Stored> {
    let kinds: Vec<u32> = (1..=4).flat_map(|kind| [kind, 0, kind, 1]).collect();
    let largest: Vec<u32> = (1..=4).flat_map(|kind| [kind, NUMBER]).collect();
    vec![
        stored(
            "one-node-all-kinds",
            "one node without a link: sends deliver, all else is 6",
            of(1, &[], &kinds),
        ),
        stored(
            "largest-arguments",
            "the largest number as argument of each kind is 6",
            of(2, &[1, 0], &largest),
        ),
    ]
}

fn readings() -> Vec<Stored> {
    let wide = |tail: &[u8]| {
        let mut bytes = of(2, &[1, 0], &[1, 128, 2, NUMBER, 4, 16_384]);
        bytes.extend(tail);
        bytes
    };
    vec![
        stored(
            "place-counts-bytes",
            "after wide arguments the place is a byte's, not a value's",
            wide(&[0x81, 0]),
        ),
        stored(
            "place-of-a-missing-argument",
            "after wide arguments the file's length is the place",
            wide(&[4]),
        ),
        stored(
            "nothing-after-spoilt",
            "good events after a spoilt one are not read",
            wide(&[9, 1, 1, 1, 1]),
        ),
        stored(
            "refusals-are-counted",
            "refused events take their ordinals",
            of(
                2,
                &[1, 0],
                &[1, 2, 2, 2, 3, 0, 1, 1, 4, 1, 3, 0, 4, 0, 4, 0],
            ),
        ),
    ]
}
