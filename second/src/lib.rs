//! A second implementation of document 01, made to judge a first one. It
//! shares nothing with it: plain data, and each sentence read anew.

pub mod answer;
pub mod calls;
pub mod claims;
pub mod departure;
pub mod drills;
pub mod events;
pub mod file;
pub mod formed;
pub mod judge;
pub mod limits;
pub mod make;
pub mod number;
pub mod opening;
pub mod random;
pub mod record;
pub mod survey;
pub mod text;
pub mod watch;
pub mod wrong;
