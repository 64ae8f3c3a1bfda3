//! What a run compares, and the run itself.

use std::fmt;
use std::path::{Path, PathBuf};
use std::time::{Duration, Instant};

use second::make::{by_seed, edges};
use second::wrong::Program;

use crate::differ::{first_other, told};
use crate::mutate::mutant;
use crate::sides::{Library, Peer, Run, Second, Side};

/// A file by the name from which it is made.
pub enum Made {
    Edge(&'static str, Vec<u8>),
    Drill(u64),
    Mutant(u64),
}

impl fmt::Display for Made {
    fn fmt(&self, f: &mut fmt::Formatter) -> fmt::Result {
        match self {
            Made::Edge(name, _) => write!(f, "edge {name}"),
            Made::Drill(seed) => write!(f, "seed {seed}"),
            Made::Mutant(seed) => write!(f, "mutant {seed}"),
        }
    }
}

impl Made {
    pub fn named(name: &str) -> Option<Made> {
        let (kind, rest) = name.split_once(' ')?;
        match kind {
            "edge" => edges::all()
                .into_iter()
                .find(|(known, _)| *known == rest)
                .map(|(known, bytes)| Made::Edge(known, bytes)),
            "seed" => rest.parse().ok().map(Made::Drill),
            "mutant" => rest.parse().ok().map(Made::Mutant),
            _ => None,
        }
    }

    pub fn file(&self) -> Vec<u8> {
        match self {
            Made::Edge(_, bytes) => bytes.clone(),
            Made::Drill(seed) => by_seed(*seed),
            Made::Mutant(seed) => mutant(*seed),
        }
    }
}

pub struct Plan {
    pub from: u64,
    /// So many made drills through the library and the peer.
    pub drills: u64,
    /// So many of them through the program too, and all edges.
    pub files: u64,
    pub program: PathBuf,
    /// The judge, wrong where a fault is seeded.
    pub judge: Program,
}

/// What a run did, or the difference that it found.
pub type Done = Result<Tally, String>;

#[derive(Default)]
pub struct Tally {
    pub edges: u64,
    pub drills: u64,
    pub programs: u64,
    pub mutants: u64,
    pub refused: u64,
    pub spoilt: u64,
    pub events: u64,
}

impl Tally {
    fn note(&mut self, text: &[u8]) {
        for line in text.split(|&byte| byte == b'\n') {
            match line.first() {
                Some(b'r') => self.refused += 1,
                Some(b's') => self.spoilt += 1,
                Some(first) if first.is_ascii_digit() => self.events += 1,
                _ => {}
            }
        }
    }
}

/// All that is called as a function.
fn functions() -> Vec<Box<dyn Side>> {
    let mut sides: Vec<Box<dyn Side>> = vec![Box::new(Library::new())];
    for peer in Peer::all() {
        sides.push(Box::new(peer));
    }
    sides
}

fn with_program(program: &Path) -> Vec<Box<dyn Side>> {
    let mut sides = functions();
    sides.push(Box::new(Run::new(program)));
    sides
}

/// Names each file before it is run, by `at`; an empty name says that a
/// difference is being made small.
pub fn compare(plan: &Plan, at: &mut dyn FnMut(&str)) -> Done {
    let mut judge = Second(plan.judge);
    let mut few = functions();
    let mut all = with_program(&plan.program);
    let mut tally = Tally::default();
    for (name, bytes) in edges::all() {
        let made = Made::Edge(name, bytes);
        tally.note(&one(&mut judge, &mut all, &made, at)?);
        tally.edges += 1;
        tally.programs += 1;
    }
    for number in 0..plan.drills {
        let made = Made::Drill(plan.from.saturating_add(number));
        let through = number < plan.files;
        let sides = if through { &mut all } else { &mut few };
        tally.note(&one(&mut judge, sides, &made, at)?);
        tally.drills += 1;
        tally.programs += u64::from(through);
    }
    Ok(tally)
}

/// Damaged files for so long, through the functions.
pub fn fuzz(judge: Program, from: u64, time: Duration, at: &mut dyn FnMut(&str)) -> Done {
    let start = Instant::now();
    let mut judge = Second(judge);
    let mut sides = functions();
    let mut tally = Tally::default();
    for seed in from.. {
        if start.elapsed() >= time {
            break;
        }
        tally.note(&one(&mut judge, &mut sides, &Made::Mutant(seed), at)?);
        tally.mutants += 1;
    }
    Ok(tally)
}

fn one(
    judge: &mut dyn Side,
    sides: &mut [Box<dyn Side>],
    made: &Made,
    at: &mut dyn FnMut(&str),
) -> Result<Vec<u8>, String> {
    let name = made.to_string();
    at(&name);
    let file = made.file();
    first_other(judge, sides, &file).map_err(|other| {
        at("");
        told(judge, &mut *sides[other], &name, &file)
    })
}
