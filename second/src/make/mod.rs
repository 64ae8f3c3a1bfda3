//! Makers of drill files.

pub mod edges;
pub mod history;
pub mod kinds;
pub mod network;

use crate::random::Random;

type Maker = fn(&mut Random) -> Vec<u8>;

pub struct Kind {
    pub name: &'static str,
    pub about: &'static str,
    /// How often `make SEED` picks it, one against the other.
    weight: u64,
    maker: Maker,
}

const fn kind(name: &'static str, weight: u64, maker: Maker, about: &'static str) -> Kind {
    Kind {
        name,
        about,
        weight,
        maker,
    }
}

pub static KINDS: [Kind; 13] = [
    kind("mixed", 12, kinds::mixed, "small networks, all events"),
    kind("deep", 12, kinds::deep, "long distances, many turns"),
    kind("large", 3, kinds::large, "up to 64 nodes and 256 links"),
    kind(
        "failures",
        8,
        kinds::failures,
        "many links fail under packets",
    ),
    kind("long", 8, kinds::long, "256 in flight, slots used again"),
    kind("blind", 3, kinds::blind, "events that mostly are refused"),
    kind(
        "headers",
        4,
        kinds::headers,
        "headers that mostly are refused",
    ),
    kind("damage", 4, kinds::damage, "one value spoilt in each way"),
    kind("flips", 3, kinds::flips, "bits flipped in a good file"),
    kind("cuts", 2, kinds::cuts, "a good file cut anywhere"),
    kind("noise", 1, kinds::noise, "a few bytes of any value"),
    kind("size", 1, kinds::size, "65,535 to 65,537 bytes"),
    kind("edge", 3, some_edge, "one of the named edges"),
];

fn some_edge(random: &mut Random) -> Vec<u8> {
    let edges = edges::all();
    let index = random.draw(edges.len() as u32) as usize;
    edges[index].1.clone()
}

/// A few draws are thrown away so that near seeds part.
fn started(seed: u64) -> Random {
    let mut random = Random::new(seed);
    for _ in 0..8 {
        random.draw(1);
    }
    random
}

pub fn by_kind(kind: &Kind, seed: u64) -> Vec<u8> {
    (kind.maker)(&mut started(seed))
}

pub fn named(name: &str) -> Option<&'static Kind> {
    KINDS.iter().find(|kind| kind.name == name)
}

/// The kind that `make SEED` picks.
pub fn kind_of(seed: u64) -> &'static Kind {
    let total: u64 = KINDS.iter().map(|kind| kind.weight).sum();
    let mut t = seed % total;
    for kind in &KINDS {
        if t < kind.weight {
            return kind;
        }
        t -= kind.weight;
    }
    &KINDS[0]
}

pub fn by_seed(seed: u64) -> Vec<u8> {
    by_kind(kind_of(seed), seed)
}
