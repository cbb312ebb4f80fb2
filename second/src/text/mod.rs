//! Files as text and back. A text has one phrase a line; `#` and `;` begin a comment.

pub mod assembly;
pub mod operands;
pub mod schedules;

use std::fmt;

/// What is wrong with a text, and in which line.
#[derive(Clone, Debug, PartialEq, Eq)]
pub struct LineError {
    pub line: usize,
    pub reason: String,
}

impl fmt::Display for LineError {
    fn fmt(&self, formatter: &mut fmt::Formatter) -> fmt::Result {
        write!(formatter, "line {}: {}", self.line, self.reason)
    }
}

/// Reads each line that has a phrase; at most `limit` of them, called `what`, are allowed.
fn read_lines<T>(
    text: &str,
    (limit, what): (usize, &str),
    read: impl Fn(&str) -> Result<T, String>,
) -> Result<Vec<T>, LineError> {
    let mut all = Vec::new();
    for (index, line) in text.lines().enumerate() {
        let phrase = line.split(['#', ';']).next().unwrap_or_default().trim();
        if phrase.is_empty() {
            continue;
        }
        let wrong = |reason| LineError { line: index + 1, reason };
        if all.len() == limit {
            return Err(wrong(format!("more than {limit} {what}")));
        }
        all.push(read(phrase).map_err(wrong)?);
    }
    Ok(all)
}

/// A number of decimal digits only.
fn decimal(digits: &str) -> Option<u32> {
    let only_digits = digits.bytes().all(|byte| byte.is_ascii_digit());
    digits.parse().ok().filter(|_| only_digits)
}
