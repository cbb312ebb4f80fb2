//! Step codes (01, "Steps"): one table, and everything that is said of codes comes from it.

use super::{Giver, Tag, FIRST_STORE, LAST_STORE};
use std::ops::Range;

/// A known step; buffers, stations and store buffers are named by index.
#[derive(Clone, Copy, Debug, PartialEq, Eq)]
pub enum Step {
    Issue,
    Arrival(usize),
    Completion(usize),
    Grant(Giver),
    Release(usize),
}

/// Known codes without a gap: `base` and the number of a slot, `first` to `last`. Slots are
/// numbered from 1; a step that needs none has the number 0.
pub struct CodeRange {
    base: u32,
    pub first: u32,
    pub last: u32,
    /// The step of a slot, by index.
    step: fn(usize) -> Step,
    /// What a schedule's text calls it.
    pub name: &'static str,
}

const NO_NUMBERS: (u32, u32) = (0, 0);
const BUFFER_NUMBERS: (u32, u32) = (Tag::FIRST_BUFFER as u32, Tag::LAST_BUFFER as u32);
const STATION_NUMBERS: (u32, u32) = (Tag::FIRST_STATION as u32, Tag::LAST_STATION as u32);
const STORE_NUMBERS: (u32, u32) = (FIRST_STORE, LAST_STORE);

/// Lowest codes first.
pub const STEP_CODES: &[CodeRange] = &[
    range(0, NO_NUMBERS, |_| Step::Issue, "issue"),
    range(16, BUFFER_NUMBERS, Step::Arrival, "arrive"),
    range(32, STATION_NUMBERS, Step::Completion, "complete"),
    range(48, BUFFER_NUMBERS, |index| Step::Grant(Giver::Buffer(index)), "grant"),
    range(48, STATION_NUMBERS, |index| Step::Grant(Giver::Station(index)), "grant"),
    range(64, STORE_NUMBERS, Step::Release, "release"),
];

/// A range in the wrong place does not compile: the lowest step and the limit go by the order.
const _: () = {
    let mut above = 1;
    while above < STEP_CODES.len() {
        assert!(STEP_CODES[above - 1].end() <= STEP_CODES[above].start(), "lowest codes first");
        above += 1;
    }
};

const fn range(
    base: u32,
    (first, last): (u32, u32),
    step: fn(usize) -> Step,
    name: &'static str,
) -> CodeRange {
    CodeRange { base, first, last, step, name }
}

impl CodeRange {
    const fn start(&self) -> u32 {
        self.base + self.first
    }

    /// The number above its last code.
    const fn end(&self) -> u32 {
        self.base + self.last + 1
    }

    pub fn codes(&self) -> Range<u32> {
        self.start()..self.end()
    }

    fn step_of_code(&self, code: u32) -> Option<Step> {
        let index = code.checked_sub(self.start())?;
        (code < self.end()).then(|| (self.step)(index as usize))
    }

    /// The number of the slot that a code names.
    pub fn slot_of_code(&self, code: u32) -> Option<u32> {
        self.codes().contains(&code).then(|| code - self.base)
    }

    /// The code of a slot, by number.
    pub fn code_of_slot(&self, slot: u32) -> Option<u32> {
        (self.first..=self.last).contains(&slot).then_some(self.base + slot)
    }
}

impl Step {
    /// The first number above the last known code.
    pub const CODE_LIMIT: usize = STEP_CODES[STEP_CODES.len() - 1].end() as usize;

    pub fn of_code(code: u32) -> Option<Step> {
        STEP_CODES.iter().find_map(|range| range.step_of_code(code))
    }

    /// Of a slot that does not exist an unknown code.
    pub fn code(self) -> u32 {
        let found = Step::known().find(|&(_, step)| step == self);
        found.map_or(Step::CODE_LIMIT as u32, |(code, _)| code)
    }

    /// All known codes with their steps, lowest first.
    pub fn known() -> impl Iterator<Item = (u32, Step)> {
        let of_range = |range: &'static CodeRange| range.codes().zip((0..).map(range.step));
        STEP_CODES.iter().flat_map(of_range)
    }

    /// All known steps, lowest code first.
    pub fn all() -> impl Iterator<Item = Step> {
        Step::known().map(|(_, step)| step)
    }
}
