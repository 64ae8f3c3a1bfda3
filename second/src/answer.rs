//! The answer numbers, and a refusal with its place.

pub type Answer = u32;

pub const DONE: Answer = 0;
pub const NOT_FORMED: Answer = 1;
pub const BAD_SIZES: Answer = 2;
pub const BAD_LINK: Answer = 3;
pub const CLOSED_WALK: Answer = 4;
pub const EVENTS_USED_UP: Answer = 5;
pub const NO_SUCH: Answer = 6;
pub const LINK_DOWN: Answer = 7;
pub const LANE_EMPTY: Answer = 8;
pub const FLIGHT_FULL: Answer = 9;
pub const OUT_OF_STEP: Answer = 10;
pub const SPOILT: Answer = 11;
pub const PART_SHORT: Answer = 12;

/// "Place is 0 where none is named."
#[derive(Clone, Copy, Debug, PartialEq, Eq)]
pub struct Refusal {
    pub answer: Answer,
    pub place: usize,
}

impl Refusal {
    pub fn new(answer: Answer) -> Refusal {
        Refusal { answer, place: 0 }
    }

    pub fn at(answer: Answer, place: usize) -> Refusal {
        Refusal { answer, place }
    }

    /// A spoilt value; "the place is the offset of that value's first byte".
    pub fn spoilt(place: usize) -> Refusal {
        Refusal::at(SPOILT, place)
    }
}
