//! The well-formedness check. It reads numbers before it trusts them, so any
//! record at all may be handed in.

use crate::limits::{EVENTS, LINKS, NODES, PACKETS};
use crate::record::{Direction, Link, Record};

/// "A record is well formed when the limits hold, every number is in its
/// range, ..": the four lines below are that sentence in its order.
pub fn formed(record: &Record) -> bool {
    sizes_hold(record) && links_hold(record) && flight_holds(record) && counts_hold(record)
}

/// "The limits hold."
fn sizes_hold(record: &Record) -> bool {
    (1..=NODES).contains(&record.nodes)
        && record.destination < record.nodes
        && record.links <= LINKS
        && record.in_flight <= PACKETS
        && record.events <= EVENTS
}

/// Nodes in range, "no link joins a node to itself", and "a marked end is In
/// and on a live link".
fn links_hold(record: &Record) -> bool {
    let holds = |link: &Link| {
        link.ends[0].node != link.ends[1].node
            && link.ends.iter().all(|end| {
                end.node < record.nodes
                    && (!end.mark || (end.direction == Direction::In && link.live))
            })
    };
    record.used_links().iter().all(holds)
}

/// "Packets in flight are on lanes of live links with numbers below admitted."
fn flight_holds(record: &Record) -> bool {
    record.used_flight().iter().all(|packet| {
        let link = record.used_links().get(packet.lane as usize / 2);
        link.is_some_and(|link| link.live) && packet.number < record.admitted
    })
}

/// "Admitted and every node's turns are at most events, and admitted = in
/// flight + delivered + lost + stranded." The sum is taken in 64 bits.
fn counts_hold(record: &Record) -> bool {
    let parts = [
        record.in_flight,
        record.delivered,
        record.lost,
        record.stranded,
    ];
    let sum: u64 = parts.iter().map(|&part| u64::from(part)).sum();
    record.admitted <= record.events
        && record
            .used_turns()
            .iter()
            .all(|&turns| turns <= record.events)
        && u64::from(record.admitted) == sum
}
