//! Random sessions of the report program.

use super::{bytes, lists, operands, schedules, Prng};
use crate::list_file;
use crate::machine::{Lent, Step, STORE_BUFFERS};
use crate::numbers::Number;
use crate::report::LOG_RECORDS;
use crate::words::{CellLimits, Fields, Operation, CELL_LIMIT, LIST_LIMIT};

/// What stands behind one of the three names.
#[derive(Clone, Debug, PartialEq, Eq)]
pub enum File {
    Bytes(Vec<u8>),
    Missing,
    Folder,
}

#[derive(Clone, Debug, PartialEq, Eq)]
pub struct Session {
    /// How many names the program is given; a fourth one is ignored.
    pub names: usize,
    /// List, operands and schedule.
    pub files: [File; FILES],
}

pub const FILES: usize = 3;
pub const LIST: usize = 0;
pub const OPERANDS: usize = 1;
pub const SCHEDULE: usize = 2;

pub fn session(prng: &mut Prng) -> Session {
    let (list, patterns) = list_and_patterns(prng);
    let codes = codes(prng, &list, &patterns);
    let files =
        [list_bytes(prng, list), operand_bytes(prng, &patterns), schedule_bytes(prng, codes)];
    Session {
        names: if prng.percent(2) { prng.pick(&[0, 1, 2, FILES + 1]) } else { FILES },
        files: files.map(|bytes| match prng.below(200) {
            0 => File::Missing,
            1 => File::Folder,
            _ => File::Bytes(bytes),
        }),
    }
}

fn list_and_patterns(prng: &mut Prng) -> (Vec<u32>, Vec<u64>) {
    let count = operands::count(prng);
    let patterns: Vec<u64> = (0..count).map(|_| operands::pattern(prng)).collect();
    if prng.percent(2) {
        return (stores_around_the_log_limit(prng), patterns);
    }
    // Now and then the list may use cells beyond the operands that are there.
    let cells = if prng.percent(3) { CELL_LIMIT } else { count };
    let length = lists::length(prng);
    (lists::good(prng, length, CellLimits::of_areas(cells, CELL_LIMIT)), patterns)
}

fn stores_around_the_log_limit(prng: &mut Prng) -> Vec<u32> {
    let length = LOG_RECORDS - 1 + prng.below(3);
    let operation = Operation::Std.number();
    let store = |place: usize| Fields { operation, r1: 0, operand: (place % CELL_LIMIT) as u32 };
    (0..length).map(|place| store(place).word()).collect()
}

fn codes(prng: &mut Prng, list: &[u32], patterns: &[u64]) -> Vec<u16> {
    if prng.percent(5) {
        return schedules::any(prng);
    }
    let numbers: Vec<Number> =
        patterns.iter().map(|&pattern| Number::from_pattern(pattern)).collect();
    let mut lent = Lent { list, operands: &numbers, results: &mut [Number::ZERO; CELL_LIMIT] };
    let mut codes = schedules::driven(prng, &mut lent);
    if prng.percent(30) {
        schedules::damage(prng, &mut codes);
    }
    if list.len() >= LOG_RECORDS && prng.percent(50) {
        // A release that is not permitted is refused with 7 even when the log is full.
        codes.push(Step::Release(prng.below(STORE_BUFFERS)).code() as u16);
    }
    codes
}

fn list_bytes(prng: &mut Prng, mut list: Vec<u32>) -> Vec<u8> {
    if prng.percent(6) {
        lists::damage(prng, &mut list);
    }
    if prng.percent(1) {
        list.resize(LIST_LIMIT + prng.below(2), list.first().copied().unwrap_or_default());
    }
    let mut file = list_file::encode(&list);
    match prng.below(200) {
        0 => bytes::fill_to_limit(prng, &mut file),
        1..=15 => bytes::damage(prng, &mut file),
        _ => {}
    }
    file
}

fn operand_bytes(prng: &mut Prng, patterns: &[u64]) -> Vec<u8> {
    let mut file = operands::file(patterns);
    if prng.percent(5) {
        operands::damage(prng, &mut file);
    }
    file
}

fn schedule_bytes(prng: &mut Prng, codes: Vec<u16>) -> Vec<u8> {
    let mut file = schedules::file(&codes);
    if prng.percent(10) {
        schedules::damage_file(prng, &mut file);
    }
    file
}
