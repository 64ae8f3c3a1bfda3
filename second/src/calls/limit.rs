//! Part `limit`: 1,000,000 accepted events, and then one more of each kind.

use crate::calls::records::line;
use crate::calls::HUGE;
use crate::events::{apply, Event};
use crate::limits::EVENTS;
use crate::opening::open;
use crate::random::Random;
use crate::record::Record;

/// One round is two accepted events and one that is refused.
const ROUNDS: u32 = EVENTS / 2;
const ROUND: [Event; 3] = [
    Event::Send { node: 1 },
    Event::Deliver { lane: 1 },
    Event::Deliver { lane: 1 },
];

/// The lines of one round in a hundred thousand, and of the last, are shown.
fn is_shown(round: u32) -> bool {
    round.is_multiple_of(100_000) || round == ROUNDS - 1
}

pub fn part(random: &mut Random, text: &mut String) {
    let mut record = open(3, 0, &[0, 1, 0, 2]).record;
    for round in 0..ROUNDS {
        for event in ROUND {
            if is_shown(round) {
                line(&mut record, event, text);
            } else {
                apply(&mut record, event);
            }
        }
    }
    one_more(random, &mut record, text);
}

fn one_more(random: &mut Random, record: &mut Record, text: &mut String) {
    for kind in 1..=4 {
        for argument in [0, 1, random.draw(8), HUGE] {
            if let Some(event) = Event::of(kind, argument) {
                line(record, event, text);
            }
        }
    }
}
