//! The four events. Each one first finds its answer, and changes the record
//! only when that is 0.

use crate::answer::{
    Answer, DONE, EVENTS_USED_UP, FLIGHT_FULL, LANE_EMPTY, LINK_DOWN, NOT_FORMED, NO_SUCH,
    OUT_OF_STEP,
};
use crate::departure::{clear_marks, lowest_out, update};
use crate::formed::formed;
use crate::limits::{EVENTS, PACKETS};
use crate::record::{Direction, Packet, Record};
use crate::wrong::{Program, Wrong, RIGHT};

#[derive(Clone, Copy, Debug, PartialEq, Eq)]
pub enum Event {
    Send { node: u32 },
    Deliver { lane: u32 },
    Lose { lane: u32 },
    Fail { link: u32 },
}

impl Event {
    /// "1 send (node), 2 deliver (lane), 3 lose (lane), 4 fail (link)."
    pub fn of(kind: u32, argument: u32) -> Option<Event> {
        match kind {
            1 => Some(Event::Send { node: argument }),
            2 => Some(Event::Deliver { lane: argument }),
            3 => Some(Event::Lose { lane: argument }),
            4 => Some(Event::Fail { link: argument }),
            _ => None,
        }
    }

    pub fn kind_and_argument(self) -> (u32, u32) {
        match self {
            Event::Send { node } => (1, node),
            Event::Deliver { lane } => (2, lane),
            Event::Lose { lane } => (3, lane),
            Event::Fail { link } => (4, link),
        }
    }
}

/// Where a packet went.
#[derive(Clone, Copy, Debug, PartialEq, Eq)]
pub enum Went {
    Lane(u32),
    Delivered,
    Lost,
    Stranded,
}

/// The answer, and the packet with where it went, if there is one.
#[derive(Clone, Copy, Debug, PartialEq, Eq)]
pub struct Outcome {
    pub answer: Answer,
    pub packet: Option<(u32, Went)>,
}

impl Outcome {
    /// "Every refusal .. gives no packet."
    fn refused(answer: Answer) -> Outcome {
        Outcome {
            answer,
            packet: None,
        }
    }

    fn done(number: u32, went: Went) -> Outcome {
        Outcome {
            answer: DONE,
            packet: Some((number, went)),
        }
    }
}

/// The right program.
pub fn apply(record: &mut Record, event: Event) -> Outcome {
    apply_as(RIGHT, record, event)
}

pub fn apply_as(program: Program, record: &mut Record, event: Event) -> Outcome {
    match attempt(program, record, event) {
        Ok(outcome) => {
            record.events += 1;
            outcome
        }
        Err(answer) => Outcome::refused(answer),
    }
}

/// "Order for events: 1, 5, 6, 7, 8, 9, 10."
fn attempt(program: Program, record: &mut Record, event: Event) -> Result<Outcome, Answer> {
    if !formed(record) {
        return Err(NOT_FORMED);
    }
    if record.events >= EVENTS {
        return Err(EVENTS_USED_UP);
    }
    match event {
        Event::Send { node } => send(program, record, node),
        Event::Deliver { lane } => deliver(program, record, lane),
        Event::Lose { lane } => lose(program, record, lane),
        Event::Fail { link } => fail(record, link),
    }
}

fn send(program: Program, record: &mut Record, node: u32) -> Result<Outcome, Answer> {
    if node >= record.nodes {
        return Err(NO_SUCH);
    }
    let at_destination = node == record.destination;
    let linked = record.has_live_link(node);
    if linked && !at_destination && is_full(program, record) {
        return Err(FLIGHT_FULL);
    }
    let number = record.admitted;
    record.admitted += 1;
    if at_destination {
        return Ok(arrive(program, record, number));
    }
    if !linked {
        return Ok(strand(record, number));
    }
    Ok(depart(program, record, node, number))
}

/// "9 depends on the number in flight and on nothing earlier."
fn is_full(program: Program, record: &Record) -> bool {
    match program {
        Some(Wrong::SlotsNotReused) => record.admitted >= PACKETS,
        _ => record.in_flight >= PACKETS,
    }
}

fn deliver(program: Program, record: &mut Record, lane: u32) -> Result<Outcome, Answer> {
    let at = packet_of(program, record, lane)?;
    let bit = record.flight[at].bit;
    let link = lane as usize / 2;
    let side = 1 - lane as usize % 2;
    let end = record.link[link].ends[side];
    let was_out = end.direction == Direction::Out;
    let differs = bit != end.remote;
    if !was_out && differs && program != Some(Wrong::NewsTwice) {
        return Err(OUT_OF_STEP);
    }
    let number = record.take(at).number;
    if was_out && differs {
        take_news(program, record, link, side);
    }
    if end.node == record.destination {
        return Ok(arrive(program, record, number));
    }
    let bounces = match program {
        Some(Wrong::BounceAfterUpdate) => {
            update(program, record, end.node);
            let now = record.link[link].ends[side];
            now.direction == Direction::Out && bit == now.remote
        }
        _ => was_out && !differs,
    };
    if !bounces {
        return Ok(depart(program, record, end.node, number));
    }
    // "The packet goes back on L, and nowhere else."
    let back = pass_on(record, link, side, number);
    match program {
        Some(Wrong::BounceSentTwice) => Ok(depart(program, record, end.node, number)),
        _ => Ok(back),
    }
}

/// "The end becomes In and its remote bit flips. Its mark stays clear."
fn take_news(program: Program, record: &mut Record, link: usize, side: usize) {
    let end = &mut record.link[link].ends[side];
    end.direction = Direction::In;
    if program != Some(Wrong::NewsTwice) {
        end.remote = !end.remote;
    }
    if program == Some(Wrong::FlipLocalOnNews) {
        end.local = !end.local;
    }
    if program == Some(Wrong::EmptyMarksOnNews) {
        let node = end.node;
        clear_marks(record, node);
    }
}

/// At the destination: "delivered, nothing more".
fn arrive(program: Program, record: &mut Record, number: u32) -> Outcome {
    if program == Some(Wrong::DestinationTurns) {
        update(program, record, record.destination);
    }
    record.delivered += 1;
    Outcome::done(number, Went::Delivered)
}

fn strand(record: &mut Record, number: u32) -> Outcome {
    record.stranded += 1;
    Outcome::done(number, Went::Stranded)
}

/// "Departure update, then out on the lowest-numbered live Out link."
fn depart(program: Program, record: &mut Record, node: u32, number: u32) -> Outcome {
    let turned = update(program, record, node);
    let Some((link, side)) = lowest_out(record, node) else {
        // A node with a live link has one that is Out by now; this arm only
        // keeps every number in one place whatever is handed in.
        return strand(record, number);
    };
    let outcome = pass_on(record, link, side, number);
    if program == Some(Wrong::BitBeforeUpdate) && turned {
        // Every Out end of a node that has just turned was flipped just now.
        let newest = record.in_flight as usize - 1;
        record.flight[newest].bit = !record.flight[newest].bit;
    }
    outcome
}

/// "The packet takes the sending end's local bit, read after the update, and
/// becomes the newest in flight."
fn pass_on(record: &mut Record, link: usize, side: usize, number: u32) -> Outcome {
    let lane = (2 * link + side) as u32;
    let bit = record.link[link].ends[side].local;
    record.put(Packet { number, lane, bit });
    Outcome::done(number, Went::Lane(lane))
}

/// "The oldest packet there is lost."
fn lose(program: Program, record: &mut Record, lane: u32) -> Result<Outcome, Answer> {
    let at = packet_of(program, record, lane)?;
    let number = record.take(at).number;
    record.lost += 1;
    Ok(Outcome::done(number, Went::Lost))
}

/// Answers 6, 7, 8, or where in the flight the oldest packet of the lane is.
fn packet_of(program: Program, record: &Record, lane: u32) -> Result<usize, Answer> {
    live_link(record, lane / 2)?;
    let there = |packet: &Packet| packet.lane == lane;
    let flight = record.used_flight();
    let found = match program {
        Some(Wrong::NewestPacket) => flight.iter().rposition(there),
        _ => flight.iter().position(there),
    };
    found.ok_or(LANE_EMPTY)
}

/// Answers 6 and 7.
fn live_link(record: &Record, link: u32) -> Result<usize, Answer> {
    let found = record.used_links().get(link as usize).ok_or(NO_SUCH)?;
    if found.live {
        Ok(link as usize)
    } else {
        Err(LINK_DOWN)
    }
}

/// "The link goes down at both ends at once. Its packets on both lanes are
/// lost; the order of the others stays. Marks on both ends are cleared;
/// directions and bits keep their last values."
fn fail(record: &mut Record, link: u32) -> Result<Outcome, Answer> {
    let at = live_link(record, link)?;
    let failed = &mut record.link[at];
    failed.live = false;
    for end in &mut failed.ends {
        end.mark = false;
    }
    let on_it = |packet: &Packet| packet.lane / 2 == link;
    while let Some(index) = record.used_flight().iter().position(on_it) {
        record.take(index);
        record.lost += 1;
    }
    Ok(Outcome {
        answer: DONE,
        packet: None,
    })
}
