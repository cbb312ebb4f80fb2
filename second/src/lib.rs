//! An independent model of the floating-point section, written from 01 alone.
//!
//! Rules: `numbers`, `words`, `refusal`, `seven_bit`, `list_file`, `machine`, `one_at_a_time`,
//! `schedule`, `report`. Around them: `text` makes files from text, `entries` are the rules as a
//! C library offers them, `proved` is such a library, `random` makes sessions and calls from a
//! seed, `compare` runs them by another program and by the library, `bench` measures it.

#[cfg(feature = "proved")]
pub mod bench;
pub mod compare;
pub mod entries;
pub mod list_file;
pub mod machine;
pub mod numbers;
pub mod one_at_a_time;
#[cfg(feature = "proved")]
pub mod proved;
pub mod random;
pub mod refusal;
pub mod report;
pub mod schedule;
pub mod seven_bit;
pub mod text;
pub mod words;
