//! What is measured, each a function of a file's bytes.

use std::hint::black_box;

use link::{text_into, TEXT_MOST};
use peer::open::open;
use peer::reader::number;
use peer::{Flight, Net, Outcome, Queues, Row, ROOM};

pub const LIBRARY: &str = "library";
pub const PEER: &str = "peer";
pub const QUEUES: &str = "queues";
pub const PEER_CHECKS: &str = "peer-checks";

/// The same without the check, to tell what that costs.
const PEER_CALLS: &str = "peer-calls";

/// Not a function but the program of crates/singles.
pub const SINGLES: &str = "singles";

pub struct Buffers {
    library: Box<[u8; TEXT_MOST]>,
    peer: Box<[u8; ROOM]>,
}

impl Buffers {
    pub fn new() -> Buffers {
        Buffers {
            library: vec![0; TEXT_MOST].try_into().expect("so many bytes"),
            peer: vec![0; ROOM].try_into().expect("so many bytes"),
        }
    }

    /// The length of the text, or the sum of single calls; none for another
    /// name.
    pub fn run(&mut self, side: &str, file: &[u8]) -> Option<u64> {
        let file = black_box(file);
        Some(match side {
            LIBRARY => text_into(file, &mut self.library) as u64,
            PEER => peer::text::<Row, false>(file, &mut self.peer) as u64,
            QUEUES => peer::text::<Queues, false>(file, &mut self.peer) as u64,
            PEER_CHECKS => singles::<true>(file),
            PEER_CALLS => singles::<false>(file),
            _ => return None,
        })
    }

    /// The text that a whole drill has just left.
    pub fn text(&self, side: &str, length: u64) -> &[u8] {
        let all: &[u8] = match side {
            LIBRARY => &self.library[..],
            _ => &self.peer[..],
        };
        &all[..length as usize]
    }
}

/// The sum of what the events of a file give, with `CHECK` each after a check
/// of its own, as crates/singles makes it.
fn singles<const CHECK: bool>(file: &[u8]) -> u64 {
    let Ok((mut net, mut at)) = open::<Row>(file) else {
        return 1;
    };
    let mut sum = 1;
    while at < file.len() {
        let kind = file[at];
        if kind.wrapping_sub(1) > 3 {
            break;
        }
        let Some((argument, next)) = number(file, at + 1) else {
            break;
        };
        at = next;
        sum = noted(sum, call::<Row, CHECK>(&mut net, kind, argument));
    }
    sum
}

/// A call of its own for each event, as the proved calls are.
#[inline(never)]
fn call<F: Flight, const CHECK: bool>(net: &mut Net<F>, kind: u8, argument: usize) -> Outcome {
    net.apply::<CHECK>(kind, argument)
}

fn noted(sum: u64, outcome: Outcome) -> u64 {
    let (answer, packet, way) = match outcome {
        Outcome::Lane(number, lane) => (0, number.into(), lane.into()),
        Outcome::Delivered(number) => (0, number.into(), 512),
        Outcome::Lost(number) => (0, number.into(), 513),
        Outcome::Stranded(number) => (0, number.into(), 514),
        Outcome::Failed => (0, 1_000_000, 515),
        Outcome::Refused(answer) => (answer.into(), 1_000_000, 515),
    };
    (sum * 16_777_619 + answer + 16 * packet + way) % 4_294_967_291
}
