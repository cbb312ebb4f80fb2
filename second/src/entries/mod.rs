//! The entries as a C library offers them: a machine is a row of words, and everything else that
//! is lent is a row too, of any length; one too short for what it is to hold is refused with 11.

mod call;
mod machine_layout;
pub mod machine_words;
pub mod own;

pub use call::{Answering, Call, Entry, WROTE_BEYOND};

/// A record of the log: place, cell, pattern.
pub const RECORD_WORDS: usize = 3;
