//! Claims about every history of the right program, checked after each event.
//! What is claimed is followed here from what happened, not from the counts.

use std::collections::VecDeque;

use crate::answer::DONE;
use crate::events::{Event, Went};
use crate::formed::formed;
use crate::record::{Direction, Link, Record};
use crate::watch::{turned_nodes, Step, Watch};

/// Where an admitted number stands, put there by an event.
#[derive(Clone, Copy, Debug, PartialEq, Eq)]
enum Place {
    InFlight { lane: u32 },
    Delivered,
    Lost,
    Stranded,
}

/// Follows one history and keeps what it finds broken.
#[derive(Default)]
pub struct Claims {
    /// One place for each admitted number.
    places: Vec<Place>,
    /// The numbers in flight, oldest sent first.
    order: Vec<u32>,
    /// Turns seen at each node.
    turns: Vec<u32>,
    pub events: u64,
    pub accepted: u64,
    pub broken: Vec<String>,
}

impl Watch for Claims {
    fn opened(&mut self, answer: u32, record: &Record) {
        self.turns = vec![0; record.used_turns().len()];
        if answer == DONE {
            self.check_record(0, record);
        }
    }

    fn step(&mut self, step: &Step) {
        self.events += 1;
        if step.outcome.answer == DONE {
            self.accepted += 1;
            self.follow_packets(step);
            for node in turned_nodes(step.before, step.after) {
                self.turns[node as usize] += 1;
            }
        } else {
            self.claim(
                step.ordinal,
                step.before == step.after,
                "a refusal changed the record",
            );
            self.claim(
                step.ordinal,
                step.outcome.packet.is_none(),
                "a refusal gave a packet",
            );
        }
        self.check_record(step.ordinal, step.after);
    }

    fn spoilt(&mut self) {}
}

impl Claims {
    fn claim(&mut self, ordinal: usize, holds: bool, broken: &str) {
        if !holds {
            self.broken.push(format!("event {ordinal}: {broken}"));
        }
    }

    fn check_record(&mut self, ordinal: usize, record: &Record) {
        self.claim(ordinal, formed(record), "the record is not well formed");
        self.claim(
            ordinal,
            self.counts_agree(record),
            "counts and places differ",
        );
        self.claim(
            ordinal,
            self.flight_agrees(record),
            "flight and places differ",
        );
        let seen = record.used_turns() == self.turns;
        self.claim(ordinal, seen, "kept turns are not the turns seen");
        let bounded = turns_bounded(record);
        self.claim(
            ordinal,
            bounded,
            "a node turned more often than its distance",
        );
        for number in 0..record.used_links().len() {
            let agree = ends_agree(record, number);
            self.claim(ordinal, agree, "the two ends of a live link are at odds");
        }
    }

    /// Puts each number where the event says it went.
    fn follow_packets(&mut self, step: &Step) {
        match (step.event, step.outcome.packet) {
            (Event::Send { .. }, Some((number, went))) => {
                let next = number as usize == self.places.len();
                self.claim(step.ordinal, next, "admission out of order");
                self.places.push(Place::Stranded);
                self.put(step.ordinal, number, went);
            }
            (Event::Deliver { lane } | Event::Lose { lane }, Some((number, went))) => {
                let oldest = self.order.iter().position(|&n| self.is_on(n, lane));
                let right = oldest.is_some_and(|at| self.order[at] == number);
                self.claim(step.ordinal, right, "not the oldest packet of its lane");
                self.order.retain(|&n| n != number);
                self.put(step.ordinal, number, went);
            }
            (Event::Fail { link }, None) => self.lose_all(link),
            _ => self.claim(step.ordinal, false, "a packet missing, or one too many"),
        }
    }

    fn put(&mut self, ordinal: usize, number: u32, went: Went) {
        let place = match went {
            Went::Lane(lane) => Place::InFlight { lane },
            Went::Delivered => Place::Delivered,
            Went::Lost => Place::Lost,
            Went::Stranded => Place::Stranded,
        };
        let Some(slot) = self.places.get_mut(number as usize) else {
            return self.claim(ordinal, false, "a number that was never admitted");
        };
        *slot = place;
        if let Went::Lane(_) = went {
            self.order.push(number);
        }
    }

    fn is_on(&self, number: u32, lane: u32) -> bool {
        self.places.get(number as usize) == Some(&Place::InFlight { lane })
    }

    fn lose_all(&mut self, link: u32) {
        for place in &mut self.places {
            if matches!(place, Place::InFlight { lane } if *lane / 2 == link) {
                *place = Place::Lost;
            }
        }
        let places = &self.places;
        let flies = |&n: &u32| matches!(places.get(n as usize), Some(Place::InFlight { .. }));
        self.order.retain(flies);
    }

    /// "The counts are the sizes" of the four places.
    fn counts_agree(&self, record: &Record) -> bool {
        let size = |of: fn(&Place) -> bool| self.places.iter().filter(|p| of(p)).count();
        record.admitted as usize == self.places.len()
            && record.delivered as usize == size(|p| *p == Place::Delivered)
            && record.lost as usize == size(|p| *p == Place::Lost)
            && record.stranded as usize == size(|p| *p == Place::Stranded)
            && record.in_flight as usize == size(|p| matches!(p, Place::InFlight { .. }))
    }

    /// The flight holds each number that stands there once, in order.
    fn flight_agrees(&self, record: &Record) -> bool {
        let flight = record.used_flight();
        flight.len() == self.order.len()
            && flight
                .iter()
                .zip(&self.order)
                .all(|(packet, &number)| packet.number == number && self.is_on(number, packet.lane))
    }
}

/// Breadth-first distances to the destination over unfailed links.
fn distances(record: &Record) -> Vec<Option<u32>> {
    let mut distance = vec![None; record.used_turns().len()];
    let mut queue = VecDeque::from([(record.destination, 0)]);
    while let Some((node, far)) = queue.pop_front() {
        let Some(slot) = distance.get_mut(node as usize) else {
            continue;
        };
        if slot.is_some() {
            continue;
        }
        *slot = Some(far);
        for link in record.used_links().iter().filter(|link| link.live) {
            let [a, b] = [link.ends[0].node, link.ends[1].node];
            if a == node {
                queue.push_back((b, far + 1));
            }
            if b == node {
                queue.push_back((a, far + 1));
            }
        }
    }
    distance
}

/// Each node's turns are at most its distance, for every node joined to the
/// destination.
fn turns_bounded(record: &Record) -> bool {
    let near = |(turns, distance): (&u32, &Option<u32>)| distance.is_none_or(|d| *turns <= d);
    record.used_turns().iter().zip(&distances(record)).all(near)
}

/// The two ends of a live link are never both In, and are in step.
fn ends_agree(record: &Record, number: usize) -> bool {
    let link = &record.link[number];
    if !link.live {
        return true;
    }
    match [link.ends[0].direction, link.ends[1].direction] {
        [Direction::In, Direction::In] => false,
        [Direction::Out, Direction::Out] => {
            let behind = [behind(link, 0), behind(link, 1)];
            behind[0] != behind[1]
                && (0..2).all(|side| match behind[side] {
                    true => lane_old_then_new(record, number, side),
                    false => lane_matches(record, number, side),
                })
        }
        _ => (0..2).all(|side| !behind(link, side) && lane_matches(record, number, side)),
    }
}

/// Whether the far end has yet to hear of this end's last turn.
fn behind(link: &Link, side: usize) -> bool {
    link.ends[side].local != link.ends[1 - side].remote
}

fn lane_bits(record: &Record, number: usize, side: usize) -> Vec<bool> {
    let lane = (2 * number + side) as u32;
    let on_lane = record.used_flight().iter().filter(|p| p.lane == lane);
    on_lane.map(|packet| packet.bit).collect()
}

/// All packets sent from this end match the receiver's remote bit.
fn lane_matches(record: &Record, number: usize, side: usize) -> bool {
    let remote = record.link[number].ends[1 - side].remote;
    lane_bits(record, number, side).iter().all(|&b| b == remote)
}

/// Old bits and then new ones; either run may be empty.
fn lane_old_then_new(record: &Record, number: usize, side: usize) -> bool {
    let old = record.link[number].ends[1 - side].remote;
    let bits = lane_bits(record, number, side);
    bits.iter().skip_while(|&&b| b == old).all(|&b| b != old)
}
