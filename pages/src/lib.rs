//! The pages held to the tree: a page that names what is no longer there
//! misleads, and nobody notices by reading it.

pub mod architecture;
pub mod checked;
pub mod code;
pub mod columns;
pub mod definitions;
pub mod edits;
pub mod example;
pub mod exceptions;
pub mod held;
pub mod links;
pub mod names;
pub mod promises;
pub mod table;
pub mod tree;
