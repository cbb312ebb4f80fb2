//! The subcommands: each takes its arguments and answers what goes to standard output.

pub mod bench;
pub mod lists;
pub mod sessions;
pub mod steps;
pub mod texts;
pub mod vectors;

use std::fs;
use std::str::FromStr;

/// What goes to standard output, and the exit status after it.
pub struct Output {
    pub bytes: Vec<u8>,
    pub status: u8,
}

impl From<Vec<u8>> for Output {
    fn from(bytes: Vec<u8>) -> Output {
        Output { bytes, status: 0 }
    }
}

impl From<String> for Output {
    fn from(text: String) -> Output {
        text.into_bytes().into()
    }
}

/// The output, or one line that says what is wrong.
pub type Outcome = Result<Output, String>;

pub fn read_file(name: &str) -> Result<Vec<u8>, String> {
    fs::read(name).map_err(|error| format!("{name}: {error}"))
}

/// A decimal argument.
pub fn numeral<T: FromStr>(text: &str) -> Result<T, String> {
    text.parse().map_err(|_| format!("`{text}` is not a number that fits here"))
}
