//! Whether a record is well formed, block by block.

use crate::flight::{Flight, MOST};
use crate::net::{Net, EVENTS, LOCAL, MARK, REMOTE};

/// The greatest byte of an end that may be marked.
const MARKED_MOST: u8 = MARK | LOCAL | REMOTE;

impl<F: Flight> Net<F> {
    /// Whether the record is well formed: one pass over the ends, one over the
    /// packets, one over the turns, without an early end.
    #[inline(always)]
    pub(crate) fn formed(&self) -> bool {
        let sum = self.flight.flying() as u64
            + u64::from(self.delivered)
            + u64::from(self.lost)
            + u64::from(self.stranded);
        let limits = (self.nodes.wrapping_sub(1) < 64)
            & (self.destination < self.nodes)
            & (self.links <= 256)
            & (self.flight.flying() <= MOST)
            & (self.events <= EVENTS)
            & (self.admitted <= self.events)
            & (u64::from(self.admitted) == sum);
        limits
            && self.ends_hold()
            && self.turns_hold()
            && self
                .flight
                .holds(2 * self.links, self.admitted, self.down != 0, &self.flags)
    }

    #[inline(always)]
    fn ends_hold(&self) -> bool {
        let blocks = self.links.div_ceil(16);
        let mut node = [0u8; 16];
        let mut flags = [0u8; 16];
        let mut same = [0u8; 16];
        let (tails, heads) = halves(&self.node);
        let (from, to) = halves(&self.flags);
        let nodes = tails.iter().zip(heads);
        for ((tail, head), (from, to)) in nodes.zip(from.iter().zip(to)).take(blocks) {
            for i in 0..16 {
                node[i] = node[i].max(tail[i]).max(head[i]);
                flags[i] = flags[i].max(from[i]).max(to[i]);
                same[i] |= if tail[i] == head[i] { 255 } else { 0 };
            }
        }
        let greatest = |all: [u8; 16]| all.iter().fold(0, |a, &b| a.max(b));
        usize::from(greatest(node)) < self.nodes
            && greatest(flags) <= MARKED_MOST
            && greatest(same) == 0
    }

    /// A count at most the events leaves the sign of the difference set.
    #[inline(always)]
    fn turns_hold(&self) -> bool {
        let over = self.events as i32 + 1;
        let mut fine = [-1i32; 8];
        let turns = self.turns.as_chunks::<8>().0;
        for turns in turns.iter().take(self.nodes.div_ceil(8)) {
            for i in 0..8 {
                fine[i] &= (turns[i] as i32).wrapping_sub(over);
            }
        }
        fine.iter().all(|&sign| sign < 0)
    }
}

type Blocks = [[u8; 16]];

/// What is kept of ends 0, and of ends 1.
#[inline(always)]
fn halves(all: &[u8; 512]) -> (&Blocks, &Blocks) {
    all.as_chunks::<16>().0.split_at(16)
}
