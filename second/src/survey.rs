//! Counts how often each thing worth testing comes up over made drills.

use crate::answer::DONE;
use crate::events::{Event, Went};
use crate::limits::PACKETS;
use crate::record::{Direction, End, Record};
use crate::watch::{turned_nodes, Step, Watch};

const THINGS: [&str; 22] = [
    "drill with a good header",
    "refused header",
    "spoilt event",
    "accepted event",
    "refused event, 6",
    "refused event, 7",
    "refused event, 8",
    "refused event, 9",
    "bounce",
    "news",
    "news at the destination",
    "partial turn",
    "turn of all ends, all marked",
    "turn of all ends, none marked",
    "second or later turn of a node",
    "stranding",
    "loss by lose",
    "failure",
    "failure that takes packets",
    "failure that takes from the middle",
    "256 in flight",
    "send flies after 256 admitted",
];

/// For each thing: how often, and in how many drills.
#[derive(Default)]
pub struct Survey {
    times: [u64; THINGS.len()],
    drills: [u64; THINGS.len()],
    this: [bool; THINGS.len()],
}

impl Survey {
    fn count(&mut self, thing: &str) {
        if let Some(at) = THINGS.iter().position(|known| *known == thing) {
            self.times[at] += 1;
            if !self.this[at] {
                self.this[at] = true;
                self.drills[at] += 1;
            }
        }
    }

    pub fn next_drill(&mut self) {
        self.this = [false; THINGS.len()];
    }

    pub fn table(&self) -> String {
        let mut text = String::from("thing | times | drills\n");
        for (at, thing) in THINGS.iter().enumerate() {
            text += &format!("{thing} | {} | {}\n", self.times[at], self.drills[at]);
        }
        text
    }

    fn turns(&mut self, step: &Step) {
        for node in turned_nodes(step.before, step.after) {
            if has_live_in(step.after, node) {
                self.count("partial turn");
            } else if has_mark(step.before, node) {
                self.count("turn of all ends, all marked");
            } else {
                self.count("turn of all ends, none marked");
            }
            if step.after.turns[node as usize] > 1 {
                self.count("second or later turn of a node");
            }
        }
    }

    fn arrival(&mut self, step: &Step, lane: u32) {
        let link = lane as usize / 2;
        let side = 1 - lane as usize % 2;
        let was = step.before.link[link].ends[side];
        if was.remote != step.after.link[link].ends[side].remote {
            self.count("news");
            if was.node == step.after.destination {
                self.count("news at the destination");
            }
        } else if was.direction == Direction::Out && was.node != step.after.destination {
            self.count("bounce");
        }
    }

    fn failure(&mut self, step: &Step, link: u32) {
        self.count("failure");
        let taken: Vec<bool> = step
            .before
            .used_flight()
            .iter()
            .map(|packet| packet.lane / 2 == link)
            .collect();
        if taken.contains(&true) {
            self.count("failure that takes packets");
        }
        let outer = [taken.first(), taken.last()];
        if taken.contains(&true) && outer == [Some(&false), Some(&false)] {
            self.count("failure that takes from the middle");
        }
    }

    fn packet(&mut self, step: &Step) {
        match (step.event, step.outcome.packet) {
            (_, Some((_, Went::Stranded))) => self.count("stranding"),
            (_, Some((_, Went::Lost))) => self.count("loss by lose"),
            (Event::Send { .. }, Some((number, Went::Lane(_)))) if number >= PACKETS => {
                self.count("send flies after 256 admitted");
            }
            _ => {}
        }
        if step.before.in_flight < PACKETS && step.after.in_flight == PACKETS {
            self.count("256 in flight");
        }
    }
}

fn has_live_in(record: &Record, node: u32) -> bool {
    record.used_links().iter().any(|link| {
        let is_in = |e: &End| e.node == node && e.direction == Direction::In;
        link.live && link.ends.iter().any(is_in)
    })
}

fn has_mark(record: &Record, node: u32) -> bool {
    let mut links = record.used_links().iter();
    links.any(|link| link.ends.iter().any(|e| e.node == node && e.mark))
}

impl Watch for Survey {
    fn opened(&mut self, answer: u32, _record: &Record) {
        if answer == DONE {
            self.count("drill with a good header");
        } else {
            self.count("refused header");
        }
    }

    fn step(&mut self, step: &Step) {
        if step.outcome.answer != DONE {
            self.count(&format!("refused event, {}", step.outcome.answer));
            return;
        }
        self.count("accepted event");
        self.turns(step);
        self.packet(step);
        match step.event {
            Event::Deliver { lane } => self.arrival(step, lane),
            Event::Fail { link } => self.failure(step, link),
            _ => {}
        }
    }

    fn spoilt(&mut self) {
        self.count("spoilt event");
    }
}
