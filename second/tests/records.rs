//! Both sides of each bound of the well-formedness sentence, and refusals.

use second::answer::*;
use second::events::{apply, Event};
use second::formed::formed;
use second::limits::{EVENTS, LINKS, NODES, PACKETS};
use second::opening::open;
use second::record::{Direction, Packet, Record, BLANK_LINK};

const HUGE: u32 = 4_294_967_295;

/// Three nodes in a row, one packet on lane 0, one lost.
fn small() -> Record {
    let mut record = open(3, 0, &[1, 0, 2, 1]).record;
    for event in [
        Event::Send { node: 1 },
        Event::Lose { lane: 0 },
        Event::Send { node: 1 },
    ] {
        assert_eq!(apply(&mut record, event).answer, DONE);
    }
    assert!(formed(&record));
    record
}

fn is_formed(change: impl Fn(&mut Record)) -> bool {
    let mut record = small();
    change(&mut record);
    let good = formed(&record);
    for kind in 1..=4 {
        for argument in [0, 1, 2, 3, 64, HUGE] {
            let before = record.clone();
            let mut copy = record.clone();
            let answer = apply(&mut copy, Event::of(kind, argument).unwrap()).answer;
            assert_eq!(answer == NOT_FORMED, !good);
            assert!(answer == DONE || copy == before);
        }
    }
    good
}

#[test]
fn sizes() {
    assert!(is_formed(|r| r.nodes = NODES));
    for nodes in [0, NODES + 1, 1000, HUGE] {
        assert!(!is_formed(|r| r.nodes = nodes));
    }
    assert!(is_formed(|r| r.destination = 2));
    for destination in [3, 64, HUGE] {
        assert!(!is_formed(|r| r.destination = destination));
    }
    for links in [3, LINKS, LINKS + 1, HUGE / 2, HUGE] {
        assert!(!is_formed(|r| r.links = links));
    }
    assert!(is_formed(|r| r.links = 1));
    for in_flight in [0, 2, PACKETS, PACKETS + 1, HUGE] {
        assert!(!is_formed(|r| r.in_flight = in_flight));
    }
}

#[test]
fn flight_of_256_and_257() {
    let flight = |count| {
        move |r: &mut Record| {
            r.in_flight = count;
            r.admitted = count + 1;
            r.events = 1000;
        }
    };
    assert!(is_formed(flight(PACKETS)));
    assert!(!is_formed(flight(PACKETS + 1)));
}

#[test]
fn links_of_256() {
    let mut record = small();
    for link in 2..LINKS as usize {
        record.link[link] = record.link[1];
    }
    record.links = LINKS;
    assert!(formed(&record));
    record.links = LINKS + 1;
    assert!(!formed(&record));
    record.links = LINKS;
    record.link[255] = BLANK_LINK;
    assert!(!formed(&record));
}

#[test]
fn ends() {
    assert!(is_formed(|r| r.link[1].ends[0].node = 0));
    for node in [1, 3, 64, HUGE] {
        assert!(!is_formed(|r| r.link[1].ends[0].node = node));
    }
    assert!(!is_formed(|r| r.link[0].ends[0].mark = true));
    assert!(is_formed(|r| r.link[0].ends[1].mark = false));
    assert!(!is_formed(|r| r.link[0].ends[1].direction = Direction::Out));
    assert!(!is_formed(|r| r.link[1].live = false));
    assert!(is_formed(|r| {
        r.link[1].live = false;
        r.link[1].ends[1].mark = false;
    }));
}

#[test]
fn packets() {
    assert!(is_formed(|r| r.flight[0].lane = 3));
    for lane in [4, 512, HUGE] {
        assert!(!is_formed(|r| r.flight[0].lane = lane));
    }
    assert!(is_formed(|r| r.flight[0].number = 0));
    for number in [2, 1000, HUGE] {
        assert!(!is_formed(|r| r.flight[0].number = number));
    }
    assert!(!is_formed(|r| {
        r.link[1].live = false;
        r.link[1].ends[1].mark = false;
        r.flight[0].lane = 2;
    }));
}

#[test]
fn counts() {
    assert!(is_formed(|r| r.events = 2));
    assert!(!is_formed(|r| r.events = 1));
    assert!(is_formed(|r| r.events = EVENTS - 1));
    assert!(!is_formed(|r| r.events = EVENTS + 1));
    assert!(is_formed(|r| r.turns[2] = 3));
    assert!(!is_formed(|r| r.turns[2] = 4));
    assert!(is_formed(|r| r.turns[3] = HUGE));
    for count in [2, 3, HUGE] {
        assert!(!is_formed(|r| r.delivered = count));
        assert!(!is_formed(|r| r.lost = count));
        assert!(!is_formed(|r| r.stranded = count));
    }
    assert!(!is_formed(|r| (r.delivered, r.lost) = (HUGE, 2)));
}

#[test]
fn answer_5_comes_before_6_and_after_1() {
    let mut record = small();
    record.events = EVENTS;
    assert!(formed(&record));
    assert_eq!(
        apply(&mut record, Event::Send { node: HUGE }).answer,
        EVENTS_USED_UP
    );
    record.lost = 0;
    assert_eq!(
        apply(&mut record, Event::Send { node: 0 }).answer,
        NOT_FORMED
    );
}

#[test]
fn answer_10_leaves_all_as_it_was() {
    let mut record = small();
    record.flight[0].bit = true;
    let before = record.clone();
    let outcome = apply(&mut record, Event::Deliver { lane: 0 });
    assert_eq!((outcome.answer, outcome.packet), (OUT_OF_STEP, None));
    assert_eq!(record, before);
}

#[test]
fn answers_6_7_8() {
    let mut record = small();
    let mut answer = |event| apply(&mut record, event).answer;
    assert_eq!(answer(Event::Send { node: 3 }), NO_SUCH);
    assert_eq!(answer(Event::Deliver { lane: 4 }), NO_SUCH);
    assert_eq!(answer(Event::Lose { lane: HUGE }), NO_SUCH);
    assert_eq!(answer(Event::Fail { link: 2 }), NO_SUCH);
    assert_eq!(answer(Event::Deliver { lane: 3 }), LANE_EMPTY);
    assert_eq!(answer(Event::Fail { link: 0 }), DONE);
    assert_eq!(answer(Event::Deliver { lane: 0 }), LINK_DOWN);
    assert_eq!(answer(Event::Lose { lane: 1 }), LINK_DOWN);
    assert_eq!(answer(Event::Fail { link: 0 }), LINK_DOWN);
}

/// "Its packets on both lanes are lost; the order of the others stays."
#[test]
fn failure_takes_from_the_middle() {
    let mut record = open(3, 0, &[1, 0, 2, 0]).record;
    for node in [1, 2, 1, 2, 1] {
        apply(&mut record, Event::Send { node });
    }
    assert_eq!(apply(&mut record, Event::Fail { link: 1 }).packet, None);
    let numbers: Vec<u32> = record.used_flight().iter().map(|p| p.number).collect();
    assert_eq!(numbers, [0, 2, 4]);
    assert_eq!((record.lost, record.in_flight), (2, 3));
}

/// What lies past the counts is no part of the record.
#[test]
fn equality() {
    let mut record = small();
    record.flight[1] = Packet {
        number: HUGE,
        lane: HUGE,
        bit: true,
    };
    record.turns[63] = 9;
    assert_eq!(record, small());
    record.flight[0].bit = true;
    assert_ne!(record, small());
}
