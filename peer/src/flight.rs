//! The packets in flight, whichever way they are kept.

/// At most so many are in flight.
pub const MOST: usize = 256;

/// A packet's number and bit in one word.
#[inline(always)]
pub(crate) fn packed(number: u32, bit: bool) -> u32 {
    number << 1 | u32::from(bit)
}

#[inline(always)]
pub(crate) fn unpacked(word: u32) -> (u32, bool) {
    (word >> 1, word & 1 != 0)
}

pub trait Flight {
    fn new() -> Self;
    fn flying(&self) -> usize;
    /// Where the oldest packet of a lane is, and its number and bit.
    fn oldest(&self, lane: usize) -> Option<(usize, u32, bool)>;
    /// Takes out what `oldest` found.
    fn take(&mut self, at: usize, lane: usize);
    /// The newest; there is room.
    fn push(&mut self, lane: usize, number: u32, bit: bool);
    /// Loses the packets of a link, and gives their number.
    fn cut(&mut self, link: usize) -> u32;
    /// Whether lanes and numbers are in range, and lanes of live links only
    /// where some link is down.
    fn holds(&self, lanes: usize, admitted: u32, down: bool, flags: &[u8; 512]) -> bool;
}
