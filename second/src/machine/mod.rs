//! What the machine holds (01, "Tags and what the machine holds").
//!
//! Places, cells and tags are plain numbers that can be damaged: good order is a test, not
//! something the types ensure.

mod good_order;
mod progress;
mod step_code;
mod steps;

pub use step_code::{CodeRange, Step, STEP_CODES};

use crate::numbers::Number;
use crate::refusal::Refusal;
use crate::words::{check_list, Arithmetic, CellLimits};

pub const REGISTERS: usize = 4;
pub const BUFFERS: usize = (Tag::LAST_BUFFER - Tag::FIRST_BUFFER + 1) as usize;
pub const STATIONS: usize = (Tag::LAST_STATION - Tag::FIRST_STATION + 1) as usize;
pub const STORE_BUFFERS: usize = (LAST_STORE - FIRST_STORE + 1) as usize;

/// Store buffers have numbers, but no tags.
pub const FIRST_STORE: u32 = 1;
const LAST_STORE: u32 = 3;

#[derive(Clone, Copy, Debug, PartialEq, Eq)]
pub struct Tag(pub u8);

/// What a tag names, by index.
#[derive(Clone, Copy, Debug, PartialEq, Eq)]
pub enum Giver {
    Buffer(usize),
    Station(usize),
}

impl Tag {
    pub const FIRST_BUFFER: u8 = 1;
    pub const LAST_BUFFER: u8 = 6;
    pub const FIRST_STATION: u8 = 8;
    pub const LAST_STATION: u8 = 12;
    /// Stations from here on add; those before multiply and divide.
    pub const FIRST_ADDER: u8 = 10;
    pub const FIRST_ADDER_INDEX: usize = (Tag::FIRST_ADDER - Tag::FIRST_STATION) as usize;

    pub fn of_buffer(index: usize) -> Tag {
        Tag(Tag::FIRST_BUFFER + index as u8)
    }

    pub fn of_station(index: usize) -> Tag {
        Tag(Tag::FIRST_STATION + index as u8)
    }

    /// None for 0, for 7 (never used) and for all above the last station.
    pub fn giver(self) -> Option<Giver> {
        match self.0 {
            Tag::FIRST_BUFFER..=Tag::LAST_BUFFER => {
                Some(Giver::Buffer(usize::from(self.0 - Tag::FIRST_BUFFER)))
            }
            Tag::FIRST_STATION..=Tag::LAST_STATION => {
                Some(Giver::Station(usize::from(self.0 - Tag::FIRST_STATION)))
            }
            _ => None,
        }
    }
}

#[derive(Clone, Copy, Debug, PartialEq)]
pub enum Operand {
    Number(Number),
    Waits(Tag),
}

#[derive(Clone, Copy, Debug, PartialEq)]
pub enum Buffer {
    Free,
    Waiting { place: usize, cell: usize },
    Full { place: usize, number: Number },
}

#[derive(Clone, Copy, Debug, PartialEq)]
pub enum Station {
    Free,
    Holding { place: usize, operation: Arithmetic, sink: Operand, source: Operand },
    Done { place: usize, result: Number },
}

#[derive(Clone, Copy, Debug, PartialEq)]
pub enum StoreBuffer {
    Free,
    Live { place: usize, cell: usize, operand: Operand },
}

impl Buffer {
    /// None when free.
    fn place(&self) -> Option<usize> {
        match *self {
            Buffer::Free => None,
            Buffer::Waiting { place, .. } | Buffer::Full { place, .. } => Some(place),
        }
    }
}

impl Station {
    /// None when free.
    fn place(&self) -> Option<usize> {
        match *self {
            Station::Free => None,
            Station::Holding { place, .. } | Station::Done { place, .. } => Some(place),
        }
    }
}

impl StoreBuffer {
    /// None when free.
    fn place(&self) -> Option<usize> {
        match *self {
            StoreBuffer::Free => None,
            StoreBuffer::Live { place, .. } => Some(place),
        }
    }
}

/// One record of the release log.
#[derive(Clone, Copy, Debug, PartialEq)]
pub struct Record {
    pub place: usize,
    pub cell: usize,
    pub number: Number,
}

#[derive(Clone, Copy, Debug, PartialEq)]
pub struct Machine {
    pub next: usize,
    pub registers: [Operand; REGISTERS],
    pub buffers: [Buffer; BUFFERS],
    pub stations: [Station; STATIONS],
    pub stores: [StoreBuffer; STORE_BUFFERS],
}

/// The list and the two areas that a caller lends.
pub struct Lent<'a> {
    pub list: &'a [u32],
    pub operands: &'a [Number],
    pub results: &'a mut [Number],
}

impl Lent<'_> {
    pub fn limits(&self) -> CellLimits {
        CellLimits::of_areas(self.operands.len(), self.results.len())
    }

    /// The refusal of the list against these areas.
    pub fn check(&self) -> Result<(), Refusal> {
        check_list(self.list, self.limits()).map_err(|fault| fault.refusal)
    }
}

impl Machine {
    /// A machine before its first issue, and whether the list was accepted. Refused, the
    /// registers are +0 instead of the start numbers.
    pub fn fresh(lent: &Lent, start: [Number; REGISTERS]) -> (Machine, Result<(), Refusal>) {
        let answer = lent.check();
        let registers = if answer.is_ok() { start } else { [Number::ZERO; REGISTERS] };
        let machine = Machine {
            next: 0,
            registers: registers.map(Operand::Number),
            buffers: [Buffer::Free; BUFFERS],
            stations: [Station::Free; STATIONS],
            stores: [StoreBuffer::Free; STORE_BUFFERS],
        };
        (machine, answer)
    }
}
