//! The whole text of a file.

use crate::digits::{word, Ordinal, Pen, END, IN, LANES, LOST, NONE};
use crate::flight::Flight;
use crate::net::{Net, Outcome};
use crate::open::open;
use crate::reader::number;
use crate::ROOM;

const FILE: usize = 65_536;

/// Writes the text of a file's bytes to the front of `out` and gives its
/// length. Never part of its caller, so that it is the same code in each.
#[inline(never)]
pub fn text<F: Flight, const CHECK: bool>(file: &[u8], out: &mut [u8; ROOM]) -> usize {
    let mut pen = Pen::new(out);
    if file.len() > FILE {
        refused(&mut pen, 11, FILE as u32);
        return pen.written(out);
    }
    match open::<F>(file) {
        Err((answer, place)) => refused(&mut pen, answer, place as u32),
        Ok((mut net, at)) => {
            let spoilt = events::<F, CHECK>(&mut net, file, at, &mut pen);
            if let Some(place) = spoilt {
                pen.word(word(b"spoilt "));
                pen.number(11);
                pen.number(place as u32);
                pen.over(b'\n');
            }
            ending(&net, &mut pen);
        }
    }
    pen.written(out)
}

/// Gives the place of a spoilt event.
fn events<F: Flight, const CHECK: bool>(
    net: &mut Net<F>,
    file: &[u8],
    from: usize,
    pen: &mut Pen,
) -> Option<usize> {
    let mut ordinal = Ordinal::first();
    let mut at = from;
    while at < file.len() {
        let kind = file[at];
        // A kind of more bytes is none of the four.
        if kind.wrapping_sub(1) > 3 {
            return Some(at);
        }
        let Some((argument, next)) = number(file, at + 1) else {
            return Some(at + 1);
        };
        at = next;
        let outcome = net.apply::<CHECK>(kind, argument);
        ordinal.put(pen);
        line(outcome, pen);
    }
    None
}

#[inline(always)]
fn line(outcome: Outcome, pen: &mut Pen) {
    match outcome {
        Outcome::Lane(number, lane) => {
            pen.number(number);
            pen.word(LANES[usize::from(lane) % 512]);
        }
        Outcome::Delivered(number) => {
            pen.number(number);
            pen.word(IN);
        }
        Outcome::Lost(number) => {
            pen.number(number);
            pen.word(LOST);
        }
        Outcome::Stranded(number) => {
            pen.number(number);
            pen.word(END);
        }
        Outcome::Failed => pen.word(NONE),
        Outcome::Refused(answer) => pen.refused(answer),
    }
}

impl Pen {
    /// The answer takes the place of the 0 before the last space.
    #[inline(always)]
    fn refused(&mut self, answer: u8) {
        self.back(2);
        if answer < 10 {
            self.put(word(b"0 - -\n") + u64::from(answer), 6);
        } else {
            self.put(word(b"10 - -\n"), 7);
        }
    }
}

fn refused(pen: &mut Pen, answer: u32, place: u32) {
    pen.word(word(b"refused"));
    pen.word(word(b" "));
    pen.number(answer);
    pen.number(place);
    pen.over(b'\n');
}

fn ending<F: Flight>(net: &Net<F>, pen: &mut Pen) {
    pen.word(word(b"total "));
    for count in [net.admitted, net.delivered, net.lost, net.stranded] {
        pen.number(count);
    }
    pen.number(net.flight.flying() as u32);
    pen.over(b'\n');
    pen.word(word(b"turns "));
    for &turns in &net.turns[..net.nodes] {
        pen.number(turns);
    }
    pen.over(b'\n');
}
