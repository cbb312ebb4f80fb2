//! A list with its areas and start numbers.

use super::{lists, operands, Prng};
use crate::machine::{Lent, REGISTERS};
use crate::numbers::Number;
use crate::words::{CellLimits, CELL_LIMIT};

/// The list passes against the areas.
#[derive(Clone, Debug, PartialEq)]
pub struct Setting {
    pub list: Vec<u32>,
    pub operands: Vec<Number>,
    pub results: Vec<Number>,
    pub starts: [Number; REGISTERS],
}

impl Setting {
    pub fn random(prng: &mut Prng, longest_list: usize) -> Setting {
        let operands = area(prng);
        let results = area(prng);
        let length = lists::length(prng).min(longest_list);
        let limits = CellLimits::of_areas(operands.len(), results.len());
        let list = lists::good(prng, length, limits);
        Setting { list, operands, results, starts: [(); REGISTERS].map(|()| number(prng)) }
    }

    /// The setting as it is lent, with other result cells.
    pub fn lent<'a>(&'a self, results: &'a mut [Number]) -> Lent<'a> {
        Lent { list: &self.list, operands: &self.operands, results }
    }
}

pub fn number(prng: &mut Prng) -> Number {
    Number::from_pattern(operands::pattern(prng))
}

/// Most areas are short; some are empty, some longer than any cell reaches.
fn area(prng: &mut Prng) -> Vec<Number> {
    let length = match prng.below(20) {
        0 => 0,
        1 => CELL_LIMIT - 1 + prng.below(3),
        2 => CELL_LIMIT + prng.below(50),
        3 => prng.below(CELL_LIMIT),
        _ => 1 + prng.below(8),
    };
    (0..length).map(|_| number(prng)).collect()
}
