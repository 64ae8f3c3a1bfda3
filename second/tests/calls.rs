//! The lines of docs/CALLS.md: the position after a refusal and at the end.

use second::calls;

/// How often a line of some kind is found; all of them must be.
#[derive(Default)]
struct Found {
    in_the_middle: u32,
    past_the_end: u32,
}

impl Found {
    fn count(&mut self, position: u64, length: u64) {
        if position < length {
            self.in_the_middle += 1;
        } else if position > length {
            self.past_the_end += 1;
        }
    }
}

/// Calls a test for each line of a part behind a `b` line, with that file's
/// length.
fn each_reading(part: &str, test: &mut dyn FnMut(u64, &[&str])) {
    let text = calls::lines(1, Some(part)).unwrap();
    let mut length = None;
    for line in text.lines() {
        let words: Vec<&str> = line.split(' ').collect();
        if words[0] == "b" {
            length = words[1].parse().ok();
        } else if let Some(length) = length {
            test(length, &words);
        }
    }
}

#[test]
fn a_refused_header_shows_its_position() {
    let mut found = Found::default();
    for part in ["readings", "drills"] {
        each_reading(part, &mut |length, words| {
            if let ["r", position, answer, _, next, _] = words {
                if *answer != "0" {
                    assert_eq!(next, position, "{words:?}");
                    found.count(position.parse().unwrap(), length);
                }
            }
        });
    }
    assert!(found.in_the_middle > 0 && found.past_the_end > 0);
}

#[test]
fn a_spoilt_event_shows_its_position() {
    let mut found = Found::default();
    for part in ["readings", "drills"] {
        each_reading(part, &mut |length, words| {
            if let ["e", position, "11", _, "-", "-", next] = words {
                assert_eq!(next, position, "{words:?}");
                found.count(position.parse().unwrap(), length);
            }
        });
    }
    assert!(found.in_the_middle > 0);
    assert_eq!(found.past_the_end, 0);
}

#[test]
fn the_end_shows_the_length_of_the_file() {
    let mut found = Found::default();
    for part in ["readings", "drills"] {
        each_reading(part, &mut |length, words| {
            if let ["e", position, "0", "0", "-", "-", next] = words {
                assert_eq!(*next, length.to_string(), "{words:?}");
                found.count(position.parse().unwrap(), length);
            }
        });
    }
    assert!(found.past_the_end > 0);
    assert_eq!(found.in_the_middle, 0);
}
