//! Drills compared byte for byte: what several programs write for one file.

pub mod differ;
pub mod mutate;
pub mod plan;
pub mod shrink;
pub mod sides;
pub mod watch;
