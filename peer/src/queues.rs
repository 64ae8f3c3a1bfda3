//! The packets in flight as a queue for each lane.

use crate::flight::{packed, unpacked, Flight, MOST};

/// No slot.
const NO: u16 = MOST as u16;

/// A queue for each lane: nothing is searched and nothing moves, but the order
/// of sending is kept within each lane only.
pub struct Queues {
    head: [u16; 512],
    tail: [u16; 512],
    next: [u16; MOST],
    word: [u32; MOST],
    free: u16,
    flying: usize,
}

impl Flight for Queues {
    fn new() -> Queues {
        Queues {
            head: [NO; 512],
            tail: [NO; 512],
            next: std::array::from_fn(|slot| slot as u16 + 1),
            word: [0; MOST],
            free: 0,
            flying: 0,
        }
    }

    #[inline(always)]
    fn flying(&self) -> usize {
        self.flying
    }

    #[inline(always)]
    fn oldest(&self, lane: usize) -> Option<(usize, u32, bool)> {
        let at = usize::from(self.head[lane % 512]);
        let (number, bit) = unpacked(*self.word.get(at)?);
        Some((at, number, bit))
    }

    #[inline(always)]
    fn take(&mut self, at: usize, lane: usize) {
        self.head[lane % 512] = self.next[at % MOST];
        self.next[at % MOST] = self.free;
        self.free = at as u16;
        self.flying -= 1;
    }

    #[inline(always)]
    fn push(&mut self, lane: usize, number: u32, bit: bool) {
        let lane = lane % 512;
        let at = usize::from(self.free) % MOST;
        self.free = self.next[at];
        self.next[at] = NO;
        self.word[at] = packed(number, bit);
        if self.head[lane] == NO {
            self.head[lane] = at as u16;
        } else {
            self.next[usize::from(self.tail[lane]) % MOST] = at as u16;
        }
        self.tail[lane] = at as u16;
        self.flying += 1;
    }

    fn cut(&mut self, link: usize) -> u32 {
        let before = self.flying;
        for lane in [2 * link, 2 * link + 1] {
            while let Some((at, _, _)) = self.oldest(lane) {
                self.take(at, lane);
            }
        }
        (before - self.flying) as u32
    }

    /// Its order is not the record's, so there is no record to be checked.
    fn holds(&self, _: usize, _: u32, _: bool, _: &[u8; 512]) -> bool {
        true
    }
}
