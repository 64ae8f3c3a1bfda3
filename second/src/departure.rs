//! "Departure update at v", and the way out.

use crate::record::{Direction, End, Record};
use crate::wrong::{Program, Wrong};

/// The lowest-numbered live link whose end at the node is Out, and that end.
pub fn lowest_out(record: &Record, node: u32) -> Option<(usize, usize)> {
    for (number, link) in record.used_links().iter().enumerate() {
        for (side, end) in link.ends.iter().enumerate() {
            if link.live && end.node == node && end.direction == Direction::Out {
                return Some((number, side));
            }
        }
    }
    None
}

/// The departure update. Says whether the node turned.
pub fn update(program: Program, record: &mut Record, node: u32) -> bool {
    // "Only if no live link of v is Out."
    if lowest_out(record, node).is_some() || !record.has_live_link(node) {
        return false;
    }
    // "If no end of v is marked, mark all its live ends."
    if !has_mark(record, node) || program == Some(Wrong::TurnAll) {
        mark_live_in_ends(record, node);
    }
    turn_marked(record, node);
    // "Then the marks of v are set anew: exactly its live In ends."
    if program != Some(Wrong::MarksNotRenewed) {
        mark_live_in_ends(record, node);
    }
    record.turns[node as usize] += 1;
    true
}

fn has_mark(record: &Record, node: u32) -> bool {
    let marked = |ends: &[End; 2]| ends.iter().any(|e| e.node == node && e.mark);
    record.used_links().iter().any(|link| marked(&link.ends))
}

/// Marks the live In ends of the node. All its live ends are In before a turn.
fn mark_live_in_ends(record: &mut Record, node: u32) {
    for link in record.used_links_mut() {
        for end in &mut link.ends {
            if link.live && end.node == node && end.direction == Direction::In {
                end.mark = true;
            }
        }
    }
}

/// "Each marked end becomes Out and its local bit flips." It loses its mark.
fn turn_marked(record: &mut Record, node: u32) {
    for link in record.used_links_mut() {
        for end in &mut link.ends {
            if end.node == node && end.mark {
                end.direction = Direction::Out;
                end.local = !end.local;
                end.mark = false;
            }
        }
    }
}

pub fn clear_marks(record: &mut Record, node: u32) {
    for link in record.used_links_mut() {
        for end in &mut link.ends {
            if end.node == node {
                end.mark = false;
            }
        }
    }
}
