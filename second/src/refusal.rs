//! Refusal numbers (01, "Refusal numbers").

use crate::seven_bit;
use crate::words::{CELL_LIMIT, LAST_OPERATION, LIST_LIMIT};
use std::fmt;

#[derive(Clone, Copy, Debug, PartialEq, Eq)]
pub enum Refusal {
    ListTooLong = 1,
    BadOperation = 2,
    BadRegister = 3,
    BadCell = 4,
    UnknownStep = 5,
    NotInGoodOrder = 6,
    NotPermitted = 7,
    FileEnds = 8,
    BadNumber = 9,
    BytesLeft = 10,
    TooSmall = 11,
}

impl Refusal {
    pub fn number(self) -> u32 {
        self as u32
    }

    /// The number of an answer: 0 means accepted.
    pub fn number_of<T>(answer: &Result<T, Refusal>) -> u32 {
        answer.as_ref().err().map_or(0, |refusal| refusal.number())
    }

    /// When it is given, in 01's words.
    pub fn reason(self) -> String {
        match self {
            Refusal::ListTooLong => {
                format!("list, or a file's count, above {}", grouped(LIST_LIMIT))
            }
            Refusal::BadOperation => format!("operation not 1 to {LAST_OPERATION}"),
            Refusal::BadRegister => "register not 0, 2, 4 or 6".into(),
            Refusal::BadCell => {
                let last = grouped(CELL_LIMIT - 1);
                format!("cell above {last}, or not below the length of its area")
            }
            Refusal::UnknownStep => "step code unknown".into(),
            Refusal::NotInGoodOrder => "machine not in good order".into(),
            Refusal::NotPermitted => "known step not permitted now".into(),
            Refusal::FileEnds => "file ends inside a number or before one that is due".into(),
            Refusal::BadNumber => {
                let greatest = grouped(seven_bit::GREATEST.into());
                format!("number not in shortest form, or above {greatest}")
            }
            Refusal::BytesLeft => "bytes left after the last word".into(),
            Refusal::TooSmall => "the lent buffer, log or file limit is too small".into(),
        }
    }

    pub fn at(self, place: usize) -> Fault {
        Fault { refusal: self, place }
    }
}

/// A number as 01 writes it: 4,096.
fn grouped(number: usize) -> String {
    match number {
        0..=999 => number.to_string(),
        _ => format!("{},{:03}", grouped(number / 1000), number % 1000),
    }
}

/// A refusal with the place it is given for: a byte of a file or a word of a list.
#[derive(Clone, Copy, Debug, PartialEq, Eq)]
pub struct Fault {
    pub refusal: Refusal,
    pub place: usize,
}

impl fmt::Display for Fault {
    fn fmt(&self, formatter: &mut fmt::Formatter) -> fmt::Result {
        let (number, place, reason) = (self.refusal.number(), self.place, self.refusal.reason());
        write!(formatter, "refusal {number} at {place}: {reason}")
    }
}
