//! Reader and writer: lengths lent, bytes left alone, round trips.

use second::answer::*;
use second::events::Event;
use second::file::{read_event, read_header, write_event, write_header, Reading, Written};
use second::number;
use second::opening::open;
use second::record::Record;

const FILL: u8 = 0xAA;

#[test]
fn every_number_there_and_back() {
    let mut bytes = Vec::new();
    for value in (0..2_097_152)
        .step_by(7)
        .chain([127, 128, 16_383, 16_384, 2_097_151])
    {
        bytes.clear();
        number::push(&mut bytes, value);
        assert_eq!(number::length(value), Some(bytes.len()));
        assert_eq!(number::read(&bytes, 0), Ok((value, bytes.len())));
    }
    assert_eq!(number::length(2_097_152), None);
}

/// Each file of up to three bytes is read as itself or not at all.
#[test]
fn only_the_shortest_form_is_read() {
    for file in 0..1 << 16 {
        for bytes in [
            &[file as u8, (file >> 8) as u8][..],
            &[0x80, file as u8, (file >> 8) as u8],
        ] {
            if let Ok((value, next)) = number::read(bytes, 0) {
                let mut again = Vec::new();
                number::push(&mut again, value);
                assert_eq!(again, bytes[..next]);
            }
        }
    }
}

#[test]
fn positions_at_and_past_the_end() {
    let bytes = [1, 0x80];
    assert_eq!(number::read(&bytes, 1), Err(1));
    for position in [2, 3, 1000, usize::MAX] {
        assert_eq!(number::read(&bytes, position), Err(2));
        assert_eq!(read_event(&bytes, position), Reading::End { next: 2 });
        let opening = read_header(&bytes, position).opening;
        assert_eq!((opening.answer, opening.place), (SPOILT, 2));
        assert_eq!(opening.record, Record::lone());
    }
}

/// A refused header leaves the position where it was asked for: in the middle
/// for each of the answers 11, 2, 3, 4, and past the file's end.
#[test]
fn a_refused_header_leaves_the_position() {
    let files = [
        (&[9, 3, 0, 2, 1, 1, 0][..], SPOILT, 7),
        (&[9, 65, 0, 0, 1, 0], BAD_SIZES, 0),
        (&[9, 3, 0, 2, 0, 1, 2, 2, 1, 0], BAD_LINK, 1),
        (&[9, 2, 0, 2, 0, 1, 1, 0, 1, 0], CLOSED_WALK, 0),
    ];
    for (bytes, answer, place) in files {
        let header = read_header(bytes, 1);
        let opening = &header.opening;
        assert_eq!((opening.answer, opening.place), (answer, place));
        assert_eq!((header.next, header.events()), (1, None));
        for position in [bytes.len(), bytes.len() + 1, 1000, usize::MAX] {
            let header = read_header(bytes, position);
            assert_eq!(header.opening.place, bytes.len());
            assert_eq!((header.next, header.events()), (position, None));
        }
    }
    let header = read_header(&[9, 3, 0, 2, 1, 0, 2, 0, 1, 1], 1);
    assert_eq!((header.next, header.events()), (8, Some(8)));
}

/// The position stays at the event's kind, wherever the trouble is.
#[test]
fn a_spoilt_event_leaves_the_position() {
    let files = [
        (&[9, 5, 0][..], 1),
        (&[9, 0x81, 0], 1),
        (&[9, 0x80], 1),
        (&[9, 1], 2),
        (&[9, 1, 0x80], 2),
        (&[9, 4, 0x80, 0], 2),
    ];
    for (bytes, place) in files {
        let next = 1;
        assert_eq!(read_event(bytes, 1), Reading::Spoilt { place, next });
    }
}

/// Asked for at the end or past it, the position is the file's length.
#[test]
fn the_end_is_the_length_of_the_file() {
    for bytes in [&[][..], &[1, 0], &[1, 0, 5]] {
        let next = bytes.len();
        for position in [next, next + 1, 1000, usize::MAX] {
            assert_eq!(read_event(bytes, position), Reading::End { next });
        }
    }
}

/// Writes into parts of all lengths: one that is too short is 12 and stays as
/// it was, a longer one keeps what is behind. Gives the bytes written.
fn into_every_length(needed: usize, write: impl Fn(&mut [u8]) -> Written) -> Vec<u8> {
    for lent in 0..needed {
        let mut part = vec![FILL; lent];
        let written = write(&mut part);
        assert_eq!((written.answer, written.count), (PART_SHORT, 0));
        assert_eq!(part, vec![FILL; lent]);
    }
    let mut bytes = Vec::new();
    for lent in needed..needed + 3 {
        let mut part = vec![FILL; lent];
        let written = write(&mut part);
        assert_eq!((written.answer, written.count), (DONE, needed));
        assert!(part[needed..].iter().all(|&byte| byte == FILL));
        bytes = part[..needed].to_vec();
    }
    bytes
}

#[test]
fn events_into_every_length() {
    for (kind, argument, needed) in [(1, 0, 2), (2, 127, 2), (3, 128, 3), (4, 2_097_151, 4)] {
        let bytes = into_every_length(needed, |part| write_event(kind, argument, part));
        let event = Event::of(kind, argument).unwrap();
        let next = needed;
        assert_eq!(read_event(&bytes, 0), Reading::Event { event, next });
    }
}

#[test]
fn bad_events_are_6_before_12() {
    let huge = 4_294_967_295;
    for (kind, argument) in [(0, 0), (5, 0), (huge, 0), (1, 2_097_152), (4, huge)] {
        for lent in 0..6 {
            let mut part = vec![FILL; lent];
            let written = write_event(kind, argument, &mut part);
            assert_eq!((written.answer, written.count), (NO_SUCH, 0));
            assert_eq!(part, vec![FILL; lent]);
        }
    }
}

#[test]
fn headers_into_every_length() {
    let long = [0, 1].repeat(128);
    for (nodes, destination, list) in [(1, 0, &[][..]), (3, 2, &[0, 1, 1, 2]), (2, 1, &long)] {
        let needed = 3 + list.len() + usize::from(list.len() >= 256);
        let write = |part: &mut [u8]| write_header(nodes, destination, list, part);
        let header = read_header(&into_every_length(needed, write), 0);
        assert_eq!(header.events(), Some(needed));
        assert_eq!(header.opening, open(nodes, destination, list));
    }
}

#[test]
fn bad_headers_are_2_3_4_before_12() {
    let cases = [
        (65, 0, &[][..], BAD_SIZES, 0),
        (2, 0, &[0, 1, 0], BAD_SIZES, 0),
        (2, 2, &[0, 0], BAD_SIZES, 0),
        (2, 0, &[0, 1, 1, 1], BAD_LINK, 1),
        (2, 0, &[0, 1, 1, 0, 0, 2], BAD_LINK, 2),
        (2, 0, &[0, 1, 1, 0], CLOSED_WALK, 0),
    ];
    for (nodes, destination, list, answer, place) in cases {
        for lent in [0, 3, 100] {
            let mut part = vec![FILL; lent];
            let written = write_header(nodes, destination, list, &mut part);
            assert_eq!(
                (written.answer, written.place, written.count),
                (answer, place, 0)
            );
            assert_eq!(part, vec![FILL; lent]);
        }
        let opening = open(nodes, destination, list);
        assert_eq!((opening.answer, opening.place), (answer, place));
        assert_eq!(opening.record, Record::lone());
    }
}
