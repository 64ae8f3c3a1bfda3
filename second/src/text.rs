//! The text of the program drill.

use crate::answer::SPOILT;
use crate::events::{apply_as, Outcome, Went};
use crate::file::{read_event, read_header, Reading};
use crate::limits::FILE;
use crate::record::Record;
use crate::watch::{Step, Watch};
use crate::wrong::Program;

/// Runs a drill file and gives the whole text. A watch, if there is one, is
/// shown every step.
pub fn drill(bytes: &[u8], program: Program, watch: Option<&mut dyn Watch>) -> String {
    if bytes.len() > FILE {
        return format!("refused {SPOILT} {FILE}\n");
    }
    let header = read_header(bytes, 0);
    let start = header.events();
    let opening = header.opening;
    let mut watch = watch;
    if let Some(watch) = watch.as_deref_mut() {
        watch.opened(opening.answer, &opening.record);
    }
    let Some(start) = start else {
        return format!("refused {} {}\n", opening.answer, opening.place);
    };
    let mut record = opening.record;
    let mut text = String::new();
    events(bytes, start, program, &mut record, watch, &mut text);
    closing_lines(&record, &mut text);
    text
}

fn events(
    bytes: &[u8],
    start: usize,
    program: Program,
    record: &mut Record,
    mut watch: Option<&mut dyn Watch>,
    text: &mut String,
) {
    let mut position = start;
    for ordinal in 1.. {
        let (event, next) = match read_event(bytes, position) {
            Reading::End { .. } => return,
            Reading::Event { event, next } => (event, next),
            Reading::Spoilt { place, .. } => {
                text.push_str(&format!("spoilt {SPOILT} {place}\n"));
                if let Some(watch) = watch.as_deref_mut() {
                    watch.spoilt();
                }
                return;
            }
        };
        let before = watch.is_some().then(|| record.clone());
        let outcome = apply_as(program, record, event);
        if let (Some(watch), Some(before)) = (watch.as_deref_mut(), &before) {
            let after = &*record;
            watch.step(&Step {
                ordinal,
                before,
                event,
                outcome,
                after,
            });
        }
        text.push_str(&format!("{ordinal} {}\n", outcome_words(outcome)));
        position = next;
    }
}

/// "The answer, the packet number or "-", and where it went: a lane, "in"
/// (delivered), "lost", "end" (stranded) or "-"."
pub fn outcome_words(outcome: Outcome) -> String {
    let answer = outcome.answer;
    match outcome.packet {
        None => format!("{answer} - -"),
        Some((number, Went::Lane(lane))) => format!("{answer} {number} {lane}"),
        Some((number, Went::Delivered)) => format!("{answer} {number} in"),
        Some((number, Went::Lost)) => format!("{answer} {number} lost"),
        Some((number, Went::Stranded)) => format!("{answer} {number} end"),
    }
}

/// ""total" with admitted, delivered, lost, stranded, in flight, and "turns"
/// with each node's turns."
fn closing_lines(record: &Record, text: &mut String) {
    text.push_str(&format!(
        "total {} {} {} {} {}\n",
        record.admitted, record.delivered, record.lost, record.stranded, record.in_flight
    ));
    text.push_str("turns");
    for turns in record.used_turns() {
        text.push_str(&format!(" {turns}"));
    }
    text.push('\n');
}
