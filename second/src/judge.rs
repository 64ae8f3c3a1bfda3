//! Tells wrong programs from the right one by made drills.

use crate::make::by_seed;
use crate::text::drill;
use crate::wrong::{ALL, RIGHT};

/// For each wrong program, by how many of the made drills its text differs
/// from the right one.
pub fn told_apart(from: u64, count: u64) -> Vec<(&'static str, u64)> {
    let mut told: Vec<(&str, u64)> = ALL.iter().map(|(_, name)| (*name, 0)).collect();
    for seed in from..from.saturating_add(count) {
        let bytes = by_seed(seed);
        let right = drill(&bytes, RIGHT, None);
        for ((wrong, _), (_, drills)) in ALL.iter().zip(&mut told) {
            if drill(&bytes, Some(*wrong), None) != right {
                *drills += 1;
            }
        }
    }
    told
}
