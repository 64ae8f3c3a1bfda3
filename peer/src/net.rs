//! The record, and the four events in place.

use crate::flight::{Flight, MOST};

pub const LOCAL: u8 = 1;
pub const REMOTE: u8 = 2;
/// A mark goes with neither of the two below it, so that a greatest byte tells.
pub const DOWN: u8 = 32;
pub const OUT: u8 = 64;
pub const MARK: u8 = 128;

/// No end.
pub const NONE: u16 = 512;

pub const EVENTS: u32 = 1_000_000;

/// An end's place in the arrays: all ends 0 stand before all ends 1, so that
/// the two of a link are compared without a shuffle.
#[inline(always)]
pub fn place_of(lane: usize) -> usize {
    (lane >> 1 | lane << 8) & 511
}

#[inline(always)]
pub fn lane_of(end: usize) -> usize {
    (end << 1 | end >> 8) & 511
}

pub struct Net<F> {
    pub nodes: usize,
    pub destination: usize,
    pub links: usize,
    /// By end; unused ones are filled so that whole blocks can be checked.
    pub node: [u8; 512],
    pub flags: [u8; 512],
    /// The ends of all nodes, node by node, each node's in the order of links.
    pub ends: [u16; 512],
    /// By end: its place in that row.
    pub place: [u16; 512],
    /// By node: where its ends start and stop.
    pub start: [u16; 65],
    /// By node: its lowest live Out end.
    pub first: [u16; 64],
    /// By node: how many live ends it has.
    pub alive: [u16; 64],
    pub turns: [u32; 64],
    pub flight: F,
    pub events: u32,
    pub admitted: u32,
    pub delivered: u32,
    pub lost: u32,
    pub stranded: u32,
    pub down: u32,
}

/// What an event gives.
#[derive(Clone, Copy, Debug, PartialEq, Eq)]
pub enum Outcome {
    Lane(u32, u16),
    Delivered(u32),
    Lost(u32),
    Stranded(u32),
    Failed,
    Refused(u8),
}

impl<F: Flight> Net<F> {
    /// One event by its kind, 1 to 4. With `CHECK` the record is checked
    /// first.
    #[inline(always)]
    pub fn apply<const CHECK: bool>(&mut self, kind: u8, argument: usize) -> Outcome {
        if CHECK && !self.formed() {
            return Outcome::Refused(1);
        }
        if self.events >= EVENTS {
            return Outcome::Refused(5);
        }
        match kind {
            1 => self.send(argument),
            2 => self.deliver(argument),
            3 => self.lose(argument),
            _ => self.fail(argument),
        }
    }

    #[inline(always)]
    fn send(&mut self, v: usize) -> Outcome {
        if v >= self.nodes {
            return Outcome::Refused(6);
        }
        let v = v % 64;
        let number = self.admitted;
        if v == self.destination {
            self.events += 1;
            self.admitted += 1;
            self.delivered += 1;
            return Outcome::Delivered(number);
        }
        let mut x = self.first[v];
        if x == NONE && self.alive[v] == 0 {
            self.events += 1;
            self.admitted += 1;
            self.stranded += 1;
            return Outcome::Stranded(number);
        }
        if self.flight.flying() >= MOST {
            return Outcome::Refused(9);
        }
        self.events += 1;
        self.admitted += 1;
        if x == NONE {
            x = self.turn(v);
        }
        self.leave(x, number)
    }

    #[inline(always)]
    fn leave(&mut self, x: u16, number: u32) -> Outcome {
        let x = usize::from(x) % 512;
        let bit = self.flags[x] & LOCAL != 0;
        let lane = lane_of(x);
        self.flight.push(lane, number, bit);
        Outcome::Lane(number, lane as u16)
    }

    #[inline(always)]
    fn find(&self, x: usize) -> Result<(usize, u32, bool), u8> {
        if x >= 2 * self.links {
            return Err(6);
        }
        if self.flags[place_of(x)] & DOWN != 0 {
            return Err(7);
        }
        self.flight.oldest(x).ok_or(8)
    }

    #[inline(always)]
    fn deliver(&mut self, x: usize) -> Outcome {
        let (at, number, bit) = match self.find(x) {
            Ok(found) => found,
            Err(answer) => return Outcome::Refused(answer),
        };
        let y = place_of(x ^ 1);
        let flags = self.flags[y];
        let out = flags & OUT != 0;
        let fresh = bit != (flags & REMOTE != 0);
        if fresh && !out {
            return Outcome::Refused(10);
        }
        self.flight.take(at, x);
        self.events += 1;
        let v = usize::from(self.node[y]) % 64;
        if fresh {
            self.flags[y] = (flags & !OUT) ^ REMOTE;
            self.shut(v, y);
        }
        if v == self.destination {
            self.delivered += 1;
            return Outcome::Delivered(number);
        }
        let mut x = y as u16;
        if fresh || !out {
            x = self.first[v];
            if x == NONE {
                x = self.turn(v);
            }
        }
        self.leave(x, number)
    }

    #[inline(always)]
    fn lose(&mut self, x: usize) -> Outcome {
        let (at, number, _) = match self.find(x) {
            Ok(found) => found,
            Err(answer) => return Outcome::Refused(answer),
        };
        self.flight.take(at, x);
        self.events += 1;
        self.lost += 1;
        Outcome::Lost(number)
    }

    fn fail(&mut self, l: usize) -> Outcome {
        if l >= self.links {
            return Outcome::Refused(6);
        }
        if self.flags[l % 256] & DOWN != 0 {
            return Outcome::Refused(7);
        }
        self.events += 1;
        self.down += 1;
        for x in [l % 256, 256 + l % 256] {
            self.flags[x] = (self.flags[x] | DOWN) & !MARK;
            let v = usize::from(self.node[x]) % 64;
            self.alive[v] -= 1;
            self.shut(v, x);
        }
        self.lost += self.flight.cut(l);
        Outcome::Failed
    }

    /// End x of node v is no way out any more.
    #[inline(always)]
    fn shut(&mut self, v: usize, x: usize) {
        if self.first[v] == x as u16 {
            let from = usize::from(self.place[x]) + 1;
            let own = self.ends.get(from..self.start[v + 1].into());
            let next = own.unwrap_or(&[]).iter().find(|&&end| {
                let flags = self.flags[usize::from(end) % 512];
                flags & (OUT | DOWN) == OUT
            });
            self.first[v] = next.copied().unwrap_or(NONE);
        }
    }

    /// Node v has live ends and all are In. Gives its lowest Out end.
    fn turn(&mut self, v: usize) -> u16 {
        let own = &self.ends[self.start[v].into()..self.start[v + 1].into()];
        let mut marked = 0;
        for &end in own {
            marked |= self.flags[usize::from(end) % 512] & MARK;
        }
        let mut first = NONE;
        for &end in own {
            let flags = &mut self.flags[usize::from(end) % 512];
            if *flags & DOWN != 0 {
                continue;
            }
            if marked == *flags & MARK {
                *flags = (*flags & !MARK | OUT) ^ LOCAL;
                if first == NONE {
                    first = end;
                }
            } else {
                *flags |= MARK;
            }
        }
        self.first[v] = first;
        self.turns[v] += 1;
        first
    }
}
