//! Somebody who looks at a history while it runs.

use crate::events::{Event, Outcome};
use crate::record::Record;

/// One event as it happened.
pub struct Step<'a> {
    pub ordinal: usize,
    pub before: &'a Record,
    pub event: Event,
    pub outcome: Outcome,
    pub after: &'a Record,
}

pub trait Watch {
    /// A header was read, or refused.
    fn opened(&mut self, answer: u32, record: &Record);
    fn step(&mut self, step: &Step);
    /// The rest of the file is spoilt.
    fn spoilt(&mut self);
}

/// The nodes that turned in a step: those with an end whose local bit flipped.
/// Nothing but a turn does that, and the turn counters are not asked. (The
/// directions alone would not do: news and then a turn leave an end Out.)
pub fn turned_nodes(before: &Record, after: &Record) -> Vec<u32> {
    let mut nodes = Vec::new();
    for (old, new) in before.used_links().iter().zip(after.used_links()) {
        for (was, is) in old.ends.iter().zip(&new.ends) {
            if was.local != is.local && !nodes.contains(&is.node) {
                nodes.push(is.node);
            }
        }
    }
    nodes
}
