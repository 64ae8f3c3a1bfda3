//! Drills of the makers.

use crate::drills::Stored;
use crate::make::{by_kind, named};

/// Kind, first seed, last seed, and why.
const MADE: [(&str, u64, u64, &str); 12] = [
    ("mixed", 1, 5, "all events on a small network"),
    ("deep", 1, 5, "long distances, many turns"),
    ("large", 1, 3, "a network near the limits"),
    ("failures", 1, 5, "many links fail under packets"),
    ("long", 1, 4, "256 in flight, slots used again"),
    ("blind", 1, 4, "events that mostly are refused"),
    ("headers", 1, 6, "a header that mostly is refused"),
    ("damage", 1, 6, "a value spoilt in some way"),
    ("flips", 1, 6, "bits flipped in a good file"),
    ("cuts", 1, 4, "a good file cut anywhere"),
    ("noise", 1, 4, "a few bytes of any value"),
    ("size", 1, 1, "65,536 bytes of all kinds of events"),
];

pub fn all() -> Vec<Stored> {
    let mut drills = Vec::new();
    for (kind, first, last, why) in MADE {
        for seed in first..=last {
            drills.push(Stored {
                name: format!("{kind}-{seed}"),
                why,
                bytes: named(kind).map_or(Vec::new(), |kind| by_kind(kind, seed)),
            });
        }
    }
    drills
}
