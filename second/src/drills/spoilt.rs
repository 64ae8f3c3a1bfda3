//! Each value of a small drill spoilt in each way: every place of 11.

use crate::drills::Stored;

/// Three nodes, two links, two events; each value in one byte.
const VALUES: [(&str, u8); 11] = [
    ("nodes", 3),
    ("destination", 0),
    ("links", 2),
    ("link-0-first", 1),
    ("link-0-second", 0),
    ("link-1-first", 2),
    ("link-1-second", 1),
    ("kind", 1),
    ("argument", 2),
    ("second-kind", 2),
    ("second-argument", 2),
];

/// What stands in the place of a value; what follows it is kept or not.
struct Way {
    name: &'static str,
    why: &'static str,
    bytes: fn(u8) -> Vec<u8>,
    rest: bool,
}

const fn way(name: &'static str, why: &'static str, bytes: fn(u8) -> Vec<u8>, rest: bool) -> Way {
    Way {
        name,
        why,
        bytes,
        rest,
    }
}

const WAYS: [Way; 6] = [
    way(
        "missing",
        "the file ends before this value",
        |_| vec![],
        false,
    ),
    way(
        "cut-1",
        "cut after one byte of it",
        |v| vec![v | 0x80],
        false,
    ),
    way(
        "cut-2",
        "cut after two bytes of it",
        |v| vec![v | 0x80, 0x81],
        false,
    ),
    way("zero-2", "a second byte of 0", |v| vec![v | 0x80, 0], true),
    way(
        "zero-3",
        "a third byte of 0",
        |v| vec![v | 0x80, 0x80, 0],
        true,
    ),
    way(
        "fourth",
        "a fourth byte needed",
        |v| vec![v | 0x80, 0xFF, 0xFF, 1],
        true,
    ),
];

pub fn all() -> Vec<Stored> {
    let mut drills = Vec::new();
    for (at, &(value, _)) in VALUES.iter().enumerate() {
        for way in &WAYS {
            drills.push(Stored {
                name: format!("spoilt-{value}-{}", way.name),
                why: way.why,
                bytes: with(at, way),
            });
        }
    }
    drills
}

fn with(at: usize, way: &Way) -> Vec<u8> {
    let plain = VALUES.map(|(_, value)| value);
    let mut bytes = plain[..at].to_vec();
    bytes.extend((way.bytes)(plain[at]));
    if way.rest {
        bytes.extend(&plain[at + 1..]);
    }
    bytes
}
