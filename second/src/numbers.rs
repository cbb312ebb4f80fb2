//! Numbers of the section: IEEE 754 binary64 (01, "The section that is modelled").

use crate::words::Arithmetic;
use std::fmt;

/// Every not-a-number is written so.
const NOT_A_NUMBER: u64 = 0x7FF8_0000_0000_0000;

#[derive(Clone, Copy, Debug)]
#[repr(transparent)]
pub struct Number(pub f64);

impl Number {
    pub const ZERO: Number = Number(0.0);

    pub fn from_pattern(pattern: u64) -> Number {
        Number(f64::from_bits(pattern))
    }

    pub fn pattern(self) -> u64 {
        if self.0.is_nan() {
            NOT_A_NUMBER
        } else {
            self.0.to_bits()
        }
    }
}

/// The same: equal bits, or both not-a-number.
impl PartialEq for Number {
    fn eq(&self, other: &Number) -> bool {
        self.pattern() == other.pattern()
    }
}

/// The pattern in sixteen hexadecimal digits.
impl fmt::Display for Number {
    fn fmt(&self, formatter: &mut fmt::Formatter) -> fmt::Result {
        write!(formatter, "{:016X}", self.pattern())
    }
}

impl Arithmetic {
    /// One operation, rounded once to nearest, ties to even, as Rust's f64 does.
    pub fn apply(self, sink: Number, source: Number) -> Number {
        Number(match self {
            Arithmetic::Add => sink.0 + source.0,
            Arithmetic::Subtract => sink.0 - source.0,
            Arithmetic::Multiply => sink.0 * source.0,
            Arithmetic::Divide => sink.0 / source.0,
        })
    }
}
