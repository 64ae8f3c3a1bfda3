//! A drill written for speed and for nothing else: the yardstick of the
//! benchmark. Nothing is proved of it; compare/ holds it to `second`.
//!
//! All is in place and in flat arrays. Each node's ends stand in a row, and
//! its lowest live Out end is kept. A line of the text is three stores of
//! eight bytes.

pub mod digits;
pub mod flight;
mod formed;
pub mod net;
pub mod open;
pub mod queues;
pub mod reader;
pub mod row;
pub mod text;

pub use flight::Flight;
pub use net::{Net, Outcome};
pub use queues::Queues;
pub use row::Row;
pub use text::text;

/// No text is longer, with room for the last stores of eight bytes.
pub const ROOM: usize = 688_708 + 64;
