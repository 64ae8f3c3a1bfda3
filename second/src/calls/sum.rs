//! The checksum of a record and of bytes.

use crate::record::{Direction, Record};

const MULTIPLIER: u64 = 48_271;
const MODULUS: u64 = 4_294_967_291;

struct Sum(u64);

impl Sum {
    fn add(&mut self, value: u32) {
        self.0 = (self.0 * MULTIPLIER + u64::from(value)) % MODULUS;
    }

    fn add_bit(&mut self, bit: bool) {
        self.add(u32::from(bit));
    }
}

pub fn of_bytes(bytes: &[u8]) -> u64 {
    let mut sum = Sum(1);
    for &byte in bytes {
        sum.add(u32::from(byte));
    }
    sum.0
}

/// Covers the counts as they are, and of each table the first entries up to
/// its count or its size, whichever is less.
pub fn of_record(record: &Record) -> u64 {
    let mut sum = Sum(1);
    for count in [
        record.nodes,
        record.destination,
        record.links,
        record.in_flight,
        record.events,
        record.admitted,
        record.delivered,
        record.lost,
        record.stranded,
    ] {
        sum.add(count);
    }
    for link in record.used_links() {
        sum.add(link.ends[0].node);
        sum.add(link.ends[1].node);
        sum.add_bit(link.live);
        for end in &link.ends {
            sum.add_bit(end.direction == Direction::Out);
            sum.add_bit(end.local);
            sum.add_bit(end.remote);
            sum.add_bit(end.mark);
        }
    }
    for &turns in record.used_turns() {
        sum.add(turns);
    }
    for packet in record.used_flight() {
        sum.add(packet.number);
        sum.add(packet.lane);
        sum.add_bit(packet.bit);
    }
    sum.0
}
