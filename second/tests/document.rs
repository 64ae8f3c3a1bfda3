//! Document 01's own examples: D1, P1 to P12, Others.

use second::answer::*;
use second::events::{apply, Event, Outcome, Went};
use second::file::{read_event, read_header, write_event, Reading};
use second::formed::formed;
use second::limits::{EVENTS, LINKS, PACKETS};
use second::make::edges;
use second::number;
use second::opening::open;
use second::record::{Direction, Record};
use second::text::drill;
use second::wrong::RIGHT;

const D1: [u8; 27] = [
    3, 0, 3, 1, 2, 1, 0, 2, 0, 4, 2, 1, 1, 1, 2, 2, 0, 2, 1, 2, 1, 2, 2, 2, 2, 2, 2,
];

const D1_TEXT: &str = "\
1 0 - -
2 0 0 0
3 0 1 1
4 0 0 1
5 0 1 2
6 0 0 2
7 0 1 in
8 0 0 in
9 8 - -
total 2 2 0 0 0
turns 0 0 1
";

fn done(number: u32, went: Went) -> Outcome {
    Outcome {
        answer: DONE,
        packet: Some((number, went)),
    }
}

fn refused(answer: Answer) -> Outcome {
    Outcome {
        answer,
        packet: None,
    }
}

fn run(bytes: &[u8]) -> Record {
    let header = read_header(bytes, 0);
    let mut at = header.events().expect("a good header");
    let mut record = header.opening.record;
    while let Reading::Event { event, next } = read_event(bytes, at) {
        apply(&mut record, event);
        at = next;
    }
    record
}

fn text(bytes: &[u8]) -> String {
    drill(bytes, RIGHT, None)
}

#[test]
fn d1_whole() {
    assert_eq!(text(&D1), D1_TEXT);
    assert_eq!(edges::named("p12-d1").as_deref(), Some(&D1[..]));
}

#[test]
fn p1_one_node() {
    let opening = open(1, 0, &[]);
    assert_eq!((opening.answer, opening.place), (DONE, 0));
    assert_eq!(opening.record, Record::lone());
    assert!(formed(&opening.record));
}

#[test]
fn p2_p3_sizes() {
    assert_eq!(open(65, 0, &[]).answer, BAD_SIZES);
    assert_eq!(open(64, 0, &[]).answer, DONE);
    assert_eq!(open(0, 0, &[]).answer, BAD_SIZES);
    assert_eq!(open(3, 3, &[]).answer, BAD_SIZES);
    assert_eq!(open(3, 2, &[]).answer, DONE);
    assert_eq!(open(3, 2, &[0, 1, 2]).answer, BAD_SIZES);
}

#[test]
fn p4_p5_links() {
    let answer_and_place = |nodes, list: &[u32]| {
        let opening = open(nodes, 0, list);
        (opening.answer, opening.place)
    };
    assert_eq!(answer_and_place(3, &[1, 1]), (BAD_LINK, 0));
    assert_eq!(answer_and_place(3, &[0, 1, 1, 3]), (BAD_LINK, 1));
    assert_eq!(answer_and_place(3, &[0, 1, 1, 0, 2, 2]), (BAD_LINK, 2));
    assert_eq!(answer_and_place(2, &[0, 1, 1, 0]), (CLOSED_WALK, 0));
    assert_eq!(answer_and_place(2, &[0, 1, 0, 1]), (DONE, 0));
    assert_eq!(answer_and_place(4, &[0, 1, 2, 3, 3, 2]), (CLOSED_WALK, 0));
}

#[test]
fn p6_p7_numbers() {
    let bytes_of = |value| {
        let mut bytes = Vec::new();
        number::push(&mut bytes, value);
        bytes
    };
    assert_eq!(bytes_of(127), [0x7F]);
    assert_eq!(bytes_of(128), [0x80, 0x01]);
    assert_eq!(bytes_of(2_097_151), [0xFF, 0xFF, 0x7F]);
    assert_eq!(number::read(&[0x80, 0x00], 0), Err(0));
    assert_eq!(number::read(&[0xFF, 0xFF, 0x7F], 0), Ok((2_097_151, 3)));
    assert_eq!(number::read(&[0xFF, 0xFF, 0xFF, 0x01], 0), Err(0));
}

#[test]
fn p8_lone_node_strands() {
    let mut record = open(2, 0, &[]).record;
    let outcome = apply(&mut record, Event::Send { node: 1 });
    assert_eq!(outcome, done(0, Went::Stranded));
    assert_eq!(record.turns[1], 0);
    assert_eq!((record.admitted, record.stranded), (1, 1));
}

/// Node 1 linked to the destination, node 2 lone, 256 packets on lane 0.
fn full() -> Record {
    let mut record = open(3, 0, &[1, 0]).record;
    for number in 0..PACKETS {
        let outcome = apply(&mut record, Event::Send { node: 1 });
        assert_eq!(outcome, done(number, Went::Lane(0)));
    }
    record
}

#[test]
fn p9_full_flight() {
    let mut record = full();
    let before = record.clone();
    assert_eq!(
        apply(&mut record, Event::Send { node: 1 }),
        refused(FLIGHT_FULL)
    );
    assert_eq!(record, before);
    assert_eq!(
        apply(&mut record, Event::Send { node: 0 }),
        done(256, Went::Delivered)
    );
    assert_eq!(
        apply(&mut record, Event::Send { node: 2 }),
        done(257, Went::Stranded)
    );
}

#[test]
fn p9_a_freed_slot_is_used_again() {
    for event in [Event::Deliver { lane: 0 }, Event::Lose { lane: 0 }] {
        let mut record = full();
        assert_eq!(apply(&mut record, event).answer, DONE);
        let send = Event::Send { node: 1 };
        assert_eq!(apply(&mut record, send), done(256, Went::Lane(0)));
        assert_eq!(apply(&mut record, send), refused(FLIGHT_FULL));
    }
    let mut record = full();
    apply(&mut record, Event::Fail { link: 0 });
    assert_eq!((record.lost, record.in_flight), (PACKETS, 0));
}

#[test]
fn p10_partial_turn() {
    let mut record = open(4, 0, &[3, 1, 1, 2, 3, 0]).record;
    apply(&mut record, Event::Send { node: 2 });
    let outcome = apply(&mut record, Event::Deliver { lane: 3 });
    assert_eq!(outcome, done(0, Went::Lane(1)));
    let [a, b] = [record.link[0].ends[1], record.link[1].ends[0]];
    assert_eq!(
        (a.direction, a.local, a.mark),
        (Direction::Out, true, false)
    );
    assert_eq!((b.direction, b.local, b.mark), (Direction::In, false, true));
    assert!(b.remote);
    assert_eq!(record.turns[..4], [0, 1, 1, 0]);
}

#[test]
fn p11_all_turn() {
    let mut record = open(4, 0, &[1, 2, 1, 3]).record;
    apply(&mut record, Event::Send { node: 2 });
    apply(&mut record, Event::Send { node: 3 });
    let first = apply(&mut record, Event::Deliver { lane: 1 });
    assert_eq!(first, done(0, Went::Lane(2)));
    let second = apply(&mut record, Event::Deliver { lane: 3 });
    assert_eq!(second, done(1, Went::Lane(0)));
    for link in record.used_links() {
        let end = link.ends[0];
        assert_eq!(
            (end.direction, end.local, end.mark),
            (Direction::Out, true, false)
        );
    }
    assert_eq!(record.turns[1], 1);
}

#[test]
fn p12_final_record_of_d1() {
    let record = run(&D1);
    let counts = [record.events, record.admitted, record.delivered];
    assert_eq!(counts, [8, 2, 2]);
    assert_eq!([record.lost, record.stranded, record.in_flight], [0; 3]);
    assert_eq!(record.used_turns(), [0, 0, 1]);
    let ends: Vec<_> = record
        .used_links()
        .iter()
        .flat_map(|link| {
            link.ends
                .map(|e| (e.node, e.direction, e.local, e.remote, e.mark))
        })
        .collect();
    use Direction::{In, Out};
    let expected = [
        (1, In, false, true, false),
        (2, Out, true, false, false),
        (1, Out, false, false, false),
        (0, In, false, false, true),
        (2, Out, false, false, false),
        (0, In, false, false, false),
    ];
    assert_eq!(ends, expected);
    let live: Vec<bool> = record.used_links().iter().map(|link| link.live).collect();
    assert_eq!(live, [true, true, false]);
}

#[test]
fn others_empty_and_257_links() {
    assert_eq!(text(&[]), "refused 11 0\n");
    let list = [0, 1].repeat(LINKS as usize);
    assert_eq!(open(2, 0, &list).answer, DONE);
    let list = [0, 1].repeat(LINKS as usize + 1);
    assert_eq!(open(2, 0, &list).answer, BAD_SIZES);
    assert_eq!(text(&edges::named("257-links").unwrap()), "refused 2 0\n");
    assert_eq!(
        text(&edges::named("257-links-cut").unwrap()),
        "refused 2 0\n"
    );
    assert_eq!(
        text(&edges::named("256-links-cut").unwrap()),
        "refused 11 4\n"
    );
}

#[test]
fn others_event_1_000_001() {
    let mut record = open(2, 0, &[1, 0]).record;
    for _ in 0..EVENTS / 2 {
        assert_eq!(apply(&mut record, Event::Send { node: 1 }).answer, DONE);
        assert_eq!(apply(&mut record, Event::Deliver { lane: 0 }).answer, DONE);
        assert_ne!(apply(&mut record, Event::Deliver { lane: 0 }).answer, DONE);
    }
    let before = record.clone();
    for kind in 1..=4 {
        for argument in [0, 1, 4_294_967_295] {
            let event = Event::of(kind, argument).unwrap();
            assert_eq!(apply(&mut record, event), refused(EVENTS_USED_UP));
        }
    }
    assert_eq!(record, before);
}

#[test]
fn sizes_of_files() {
    let size = |name| text(&edges::named(name).unwrap());
    assert_eq!(size("size-65537"), "refused 11 65536\n");
    assert_eq!(size("size-65537-bad"), "refused 11 65536\n");
    assert_eq!(size("size-65536-bad"), "refused 2 0\n");
    assert!(size("size-65536").ends_with("spoilt 11 65536\ntotal 32766 32766 0 0 0\nturns 0\n"));
    assert!(size("size-65535").ends_with("32766 0 32765 in\ntotal 32766 32766 0 0 0\nturns 0\n"));
}

#[test]
fn every_edge_has_its_own_name() {
    let edges = edges::all();
    for (at, (name, _)) in edges.iter().enumerate() {
        assert!(edges[..at].iter().all(|(other, _)| other != name), "{name}");
    }
}

#[test]
fn order_of_header_answers() {
    let answers = [
        ("order-11-before-2", "refused 11 2\n"),
        ("order-11-before-2-missing", "refused 11 2\n"),
        ("order-2-before-link-11", "refused 2 0\n"),
        ("order-2-before-missing-links", "refused 2 0\n"),
        ("order-link-11-before-3", "refused 11 6\n"),
        ("order-link-11-before-4", "refused 11 7\n"),
        ("order-2-before-3", "refused 2 0\n"),
        ("order-3-before-4", "refused 3 2\n"),
        ("order-3-first-link", "refused 3 0\n"),
        ("p5-64-ring", "refused 4 0\n"),
        ("header-link-cut", "refused 11 4\n"),
        ("header-links-missing", "refused 11 3\n"),
    ];
    for (name, expected) in answers {
        assert_eq!(text(&edges::named(name).unwrap()), expected, "{name}");
    }
}

#[test]
fn places_of_spoilt_events() {
    let places = [
        ("kind-0", 7),
        ("kind-5", 7),
        ("kind-5-alone", 7),
        ("kind-128", 7),
        ("kind-not-shortest", 7),
        ("kind-fourth-byte", 7),
        ("kind-cut", 7),
        ("argument-missing", 8),
        ("argument-cut", 8),
        ("argument-cut-at-two", 8),
    ];
    for (name, place) in places {
        let expected = format!("1 0 0 0\nspoilt 11 {place}\ntotal 1 0 0 0 1\nturns 0 0\n");
        assert_eq!(text(&edges::named(name).unwrap()), expected, "{name}");
    }
}

#[test]
fn writing_d1_event_by_event() {
    let mut bytes = D1[..9].to_vec();
    for pair in D1[9..].chunks_exact(2) {
        let mut part = [0; 2];
        let written = write_event(u32::from(pair[0]), u32::from(pair[1]), &mut part);
        assert_eq!((written.answer, written.count), (DONE, 2));
        bytes.extend(part);
    }
    assert_eq!(bytes, D1);
}
