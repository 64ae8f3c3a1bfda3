//! The packets in flight as one row, oldest first.

use std::arch::x86_64::{_mm_cmpeq_epi16, _mm_loadu_si128, _mm_movemask_epi8, _mm_set1_epi16};

use crate::flight::{packed, unpacked, Flight, MOST};

/// Room to look at whole blocks.
const SLOTS: usize = MOST + 16;

/// Oldest first, closed up, as document 01 lists them.
pub struct Row {
    lane: [u16; SLOTS],
    word: [u32; SLOTS],
    flying: usize,
}

impl Flight for Row {
    fn new() -> Row {
        Row {
            lane: [0; SLOTS],
            word: [0; SLOTS],
            flying: 0,
        }
    }

    #[inline(always)]
    fn flying(&self) -> usize {
        self.flying
    }

    /// Sixteen at a time. What stands past the last packet is found too, and
    /// told by its place.
    #[inline(always)]
    fn oldest(&self, lane: usize) -> Option<(usize, u32, bool)> {
        let mut base = 0;
        while base < self.flying {
            let found = sixteen(&self.lane, base, lane as u16);
            if found != 0 {
                let at = base + found.trailing_zeros() as usize / 2;
                if at >= self.flying {
                    return None;
                }
                let (number, bit) = unpacked(self.word[at]);
                return Some((at, number, bit));
            }
            base += 16;
        }
        None
    }

    #[inline(always)]
    fn take(&mut self, at: usize, _: usize) {
        self.lane.copy_within(at + 1..self.flying, at);
        self.word.copy_within(at + 1..self.flying, at);
        self.flying -= 1;
    }

    #[inline(always)]
    fn push(&mut self, lane: usize, number: u32, bit: bool) {
        self.lane[self.flying] = lane as u16;
        self.word[self.flying] = packed(number, bit);
        self.flying += 1;
    }

    fn cut(&mut self, link: usize) -> u32 {
        let mut kept = 0;
        for at in 0..self.flying.min(MOST) {
            let lane = self.lane[at];
            self.lane[kept] = lane;
            self.word[kept] = self.word[at];
            kept += usize::from(usize::from(lane) / 2 != link);
        }
        let lost = self.flying - kept;
        self.flying = kept;
        lost as u32
    }

    /// What stands past the last packet was one or is 0, so whole blocks do. A
    /// number in range leaves the sign of the difference set.
    #[inline(always)]
    fn holds(&self, lanes: usize, admitted: u32, down: bool, flags: &[u8; 512]) -> bool {
        if self.flying == 0 {
            return true;
        }
        let most = 2 * admitted as i32;
        let mut top = [0i16; 16];
        let mut fine = [-1i32; 16];
        let lane = self.lane.as_chunks::<16>().0;
        let word = self.word.as_chunks::<16>().0;
        for (lane, word) in lane.iter().zip(word).take(self.flying.div_ceil(16)) {
            for i in 0..16 {
                top[i] = top[i].max(lane[i] as i16);
                fine[i] &= (word[i] as i32).wrapping_sub(most);
            }
        }
        let top = top.iter().fold(0, |a, &b| a.max(b));
        let fine = fine.iter().fold(-1, |a, &b| a & b);
        (top as usize) < lanes && fine < 0 && !(down && self.on_down(flags))
    }
}

impl Row {
    fn on_down(&self, flags: &[u8; 512]) -> bool {
        let mut some = 0;
        for &lane in &self.lane[..self.flying] {
            some |= flags[usize::from(lane / 2) % 512];
        }
        some & crate::net::DOWN != 0
    }
}

/// Two bits for each of sixteen lanes that is the one.
#[inline(always)]
fn sixteen(lanes: &[u16; SLOTS], base: usize, lane: u16) -> u32 {
    let part: &[u16; 16] = lanes[base..base + 16].try_into().expect("sixteen");
    // Both loads are within the sixteen.
    unsafe {
        let all = _mm_set1_epi16(lane as i16);
        let low = _mm_loadu_si128(part.as_ptr().cast());
        let high = _mm_loadu_si128(part.as_ptr().add(8).cast());
        let low = _mm_movemask_epi8(_mm_cmpeq_epi16(low, all)) as u32;
        let high = _mm_movemask_epi8(_mm_cmpeq_epi16(high, all)) as u32;
        low | high << 16
    }
}
