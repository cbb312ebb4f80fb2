//! A machine as a row of words: next place, registers, buffers, stations, store buffers.
//!
//! Every row of words is some machine: an absent word is 0, a state or kind above the last one
//! means the last, and of a tag the low eight bits count. A machine has one row of words.

use super::machine_layout::{BUFFER_SLOTS, REGISTER_SLOTS, STATION_SLOTS, STORE_SLOTS};
use crate::machine::{Buffer, Machine, Operand, Station, StoreBuffer, Tag};
use crate::numbers::Number;
use crate::words::Arithmetic;
use std::array;
use std::ops::Range;

pub use super::machine_layout::{name, place_words, slots_like, MACHINE_WORDS, NEXT_PLACE};

type OperandWords = [u64; REGISTER_SLOTS.width()];
type BufferWords = [u64; BUFFER_SLOTS.width()];
type StationWords = [u64; STATION_SLOTS.width()];
type StoreWords = [u64; STORE_SLOTS.width()];

/// The kind of an operand.
const NUMBER: u64 = 0;
const TAG: u64 = 1;

/// The states of a slot; a free one has 0 in all its words.
const FREE: u64 = 0;
const WAITING: u64 = 1;
const FULL: u64 = 2;
const HOLDING: u64 = 1;
const DONE: u64 = 2;
const LIVE: u64 = 1;

const LAST_ARITHMETIC: usize = Arithmetic::ALL.len() - 1;

/// The last kind, the last state of each sort of slot, and the last operation of a station.
pub const LAST_NUMBERS: [u64; 5] = [TAG, FULL, DONE, LIVE, LAST_ARITHMETIC as u64];

pub fn machine_of(words: &[u64]) -> Machine {
    let [next] = slot(words, NEXT_PLACE..NEXT_PLACE + 1);
    Machine {
        next: next as usize,
        registers: array::from_fn(|index| operand_of(slot(words, REGISTER_SLOTS.words(index)))),
        buffers: array::from_fn(|index| buffer_of(slot(words, BUFFER_SLOTS.words(index)))),
        stations: array::from_fn(|index| station_of(slot(words, STATION_SLOTS.words(index)))),
        stores: array::from_fn(|index| store_of(slot(words, STORE_SLOTS.words(index)))),
    }
}

/// The words of one slot.
fn slot<const WIDTH: usize>(words: &[u64], range: Range<usize>) -> [u64; WIDTH] {
    array::from_fn(|field| words.get(range.start + field).copied().unwrap_or(0))
}

fn operand_of([kind, value]: OperandWords) -> Operand {
    match kind {
        NUMBER => Operand::Number(Number::from_pattern(value)),
        _ => Operand::Waits(Tag(value as u8)),
    }
}

fn buffer_of([state, place, content]: BufferWords) -> Buffer {
    let place = place as usize;
    match state {
        FREE => Buffer::Free,
        WAITING => Buffer::Waiting { place, cell: content as usize },
        _ => Buffer::Full { place, number: Number::from_pattern(content) },
    }
}

fn station_of(words: StationWords) -> Station {
    let [state, place, content, sink_kind, sink, source_kind, source] = words;
    let place = place as usize;
    match state {
        FREE => Station::Free,
        HOLDING => Station::Holding {
            place,
            operation: Arithmetic::ALL[content.min(LAST_ARITHMETIC as u64) as usize],
            sink: operand_of([sink_kind, sink]),
            source: operand_of([source_kind, source]),
        },
        _ => Station::Done { place, result: Number::from_pattern(content) },
    }
}

fn store_of([state, place, cell, kind, value]: StoreWords) -> StoreBuffer {
    match state {
        FREE => StoreBuffer::Free,
        _ => StoreBuffer::Live {
            place: place as usize,
            cell: cell as usize,
            operand: operand_of([kind, value]),
        },
    }
}

pub fn words_of(machine: &Machine) -> [u64; MACHINE_WORDS] {
    let mut words = [0; MACHINE_WORDS];
    words[NEXT_PLACE] = machine.next as u64;
    for (index, &register) in machine.registers.iter().enumerate() {
        words[REGISTER_SLOTS.words(index)].copy_from_slice(&operand_words(register));
    }
    for (index, &buffer) in machine.buffers.iter().enumerate() {
        words[BUFFER_SLOTS.words(index)].copy_from_slice(&buffer_words(buffer));
    }
    for (index, &station) in machine.stations.iter().enumerate() {
        words[STATION_SLOTS.words(index)].copy_from_slice(&station_words(station));
    }
    for (index, &store) in machine.stores.iter().enumerate() {
        words[STORE_SLOTS.words(index)].copy_from_slice(&store_words(store));
    }
    words
}

fn operand_words(operand: Operand) -> OperandWords {
    match operand {
        Operand::Number(number) => [NUMBER, number.pattern()],
        Operand::Waits(tag) => [TAG, u64::from(tag.0)],
    }
}

fn buffer_words(buffer: Buffer) -> BufferWords {
    match buffer {
        Buffer::Free => [FREE; BUFFER_SLOTS.width()],
        Buffer::Waiting { place, cell } => [WAITING, place as u64, cell as u64],
        Buffer::Full { place, number } => [FULL, place as u64, number.pattern()],
    }
}

fn station_words(station: Station) -> StationWords {
    match station {
        Station::Free => [FREE; STATION_SLOTS.width()],
        Station::Holding { place, operation, sink, source } => {
            let ([sink_kind, sink], [source_kind, source]) =
                (operand_words(sink), operand_words(source));
            [HOLDING, place as u64, operation as u64, sink_kind, sink, source_kind, source]
        }
        Station::Done { place, result } => [DONE, place as u64, result.pattern(), 0, 0, 0, 0],
    }
}

fn store_words(store: StoreBuffer) -> StoreWords {
    match store {
        StoreBuffer::Free => [FREE; STORE_SLOTS.width()],
        StoreBuffer::Live { place, cell, operand } => {
            let [kind, value] = operand_words(operand);
            [LIVE, place as u64, cell as u64, kind, value]
        }
    }
}
