//! Calls that no drill file can make, one line each. The rule is in
//! docs/CALLS.md; another program follows it and must write the same lines.

mod drills;
mod limit;
mod openings;
mod readings;
mod records;
mod spoil;
pub(crate) mod sum;
mod writings;

use crate::random::Random;

/// The largest number drawn or handed in.
const HUGE: u32 = 4_294_967_295;

/// A node or lane far past any: sixteen bits hold it.
const FAR: u32 = 65_535;

type Part = fn(&mut Random, &mut String);

/// Each part in order, with the number that its generator starts from.
const PARTS: [(&str, u64, Part); 6] = [
    ("open", 0, openings::part),
    ("records", 1, records::part),
    ("writings", 2, writings::part),
    ("readings", 3, readings::part),
    ("drills", 5, drills::part),
    ("limit", 4, limit::part),
];

/// The lines of one part, or of all in order. Each part starts its own
/// generator, so it gives the same lines alone.
pub fn lines(seed: u32, only: Option<&str>) -> Option<String> {
    let mut text = String::new();
    let mut found = false;
    for (name, number, part) in PARTS {
        if only.is_none_or(|wanted| wanted == name) {
            part(&mut Random::new(u64::from(seed) * 5 + number), &mut text);
            found = true;
        }
    }
    found.then_some(text)
}
