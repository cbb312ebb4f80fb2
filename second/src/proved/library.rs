//! The C functions of the proved library, each behind a safe function.
//!
//! A lent row is passed as its pointer and its length. A library that keeps to its contracts
//! reads and writes nothing beyond, which makes every call safe; rows may have any length.

use crate::numbers::Number;

/// `Number` is an f64 in memory, so rows of numbers need no copy.
mod c {
    use super::Number;

    extern "C" {
        pub fn wethertide_read_list(
            bytes: *const u8,
            bytes_length: usize,
            words: *mut u32,
            words_length: usize,
            answer: *mut u64,
            answer_length: usize,
        ) -> u32;
        pub fn wethertide_write_list(
            words: *const u32,
            words_length: usize,
            bytes: *mut u8,
            bytes_length: usize,
            answer: *mut u64,
            answer_length: usize,
        ) -> u32;
        pub fn wethertide_fresh(
            words: *const u32,
            words_length: usize,
            operands: *const Number,
            operands_length: usize,
            results: *const Number,
            results_length: usize,
            starts: *const Number,
            starts_length: usize,
            machine: *mut u64,
            machine_length: usize,
        ) -> u32;
        pub fn wethertide_step(
            machine: *mut u64,
            machine_length: usize,
            words: *const u32,
            words_length: usize,
            operands: *const Number,
            operands_length: usize,
            results: *mut Number,
            results_length: usize,
            code: u32,
            released: *mut u64,
            released_length: usize,
        ) -> u32;
        pub fn wethertide_good_order(
            machine: *const u64,
            machine_length: usize,
            words: *const u32,
            words_length: usize,
            operands: *const Number,
            operands_length: usize,
            results: *const Number,
            results_length: usize,
        ) -> bool;
        pub fn wethertide_drained(
            machine: *const u64,
            machine_length: usize,
            words: *const u32,
            words_length: usize,
        ) -> bool;
        pub fn wethertide_steps_left(
            machine: *const u64,
            machine_length: usize,
            words: *const u32,
            words_length: usize,
            operands: *const Number,
            operands_length: usize,
            results: *const Number,
            results_length: usize,
            answer: *mut u64,
            answer_length: usize,
        ) -> u32;
        pub fn wethertide_lowest_step(
            machine: *const u64,
            machine_length: usize,
            words: *const u32,
            words_length: usize,
            operands: *const Number,
            operands_length: usize,
            results: *const Number,
            results_length: usize,
            answer: *mut u64,
            answer_length: usize,
        ) -> u32;
        pub fn wethertide_one_at_a_time(
            words: *const u32,
            words_length: usize,
            operands: *const Number,
            operands_length: usize,
            results: *mut Number,
            results_length: usize,
            registers: *mut Number,
            registers_length: usize,
        ) -> u32;
        pub fn wethertide_run(
            machine: *mut u64,
            machine_length: usize,
            words: *const u32,
            words_length: usize,
            operands: *const Number,
            operands_length: usize,
            results: *mut Number,
            results_length: usize,
            schedule: *const u8,
            schedule_length: usize,
            log: *mut u64,
            log_length: usize,
            answer: *mut u64,
            answer_length: usize,
        ) -> u32;
    }
}

/// Calls a C function with rows: `in` is only read, `out` may be written, `value` goes as it is.
macro_rules! call {
    (@arguments $name:ident [$($done:expr,)*]) => {
        // SAFETY: each pointer comes with the length of its row, and the library keeps within it.
        unsafe { c::$name($($done,)*) }
    };
    (@arguments $name:ident [$($done:expr,)*] in $row:ident $($rest:tt)*) => {
        call!(@arguments $name [$($done,)* $row.as_ptr(), $row.len(),] $($rest)*)
    };
    (@arguments $name:ident [$($done:expr,)*] out $row:ident $($rest:tt)*) => {
        call!(@arguments $name [$($done,)* $row.as_mut_ptr(), $row.len(),] $($rest)*)
    };
    (@arguments $name:ident [$($done:expr,)*] value $value:ident $($rest:tt)*) => {
        call!(@arguments $name [$($done,)* $value,] $($rest)*)
    };
    ($name:ident: $($arguments:tt)*) => {
        call!(@arguments $name [] $($arguments)*)
    };
}

pub fn read_list(bytes: &[u8], words: &mut [u32], answer: &mut [u64]) -> u32 {
    call!(wethertide_read_list: in bytes out words out answer)
}

pub fn write_list(words: &[u32], bytes: &mut [u8], answer: &mut [u64]) -> u32 {
    call!(wethertide_write_list: in words out bytes out answer)
}

pub fn fresh(
    words: &[u32],
    operands: &[Number],
    results: &[Number],
    starts: &[Number],
    machine: &mut [u64],
) -> u32 {
    call!(wethertide_fresh: in words in operands in results in starts out machine)
}

pub fn step(
    machine: &mut [u64],
    words: &[u32],
    operands: &[Number],
    results: &mut [Number],
    code: u32,
    released: &mut [u64],
) -> u32 {
    call!(wethertide_step: out machine in words in operands out results value code out released)
}

pub fn good_order(machine: &[u64], words: &[u32], operands: &[Number], results: &[Number]) -> bool {
    call!(wethertide_good_order: in machine in words in operands in results)
}

pub fn drained(machine: &[u64], words: &[u32]) -> bool {
    call!(wethertide_drained: in machine in words)
}

pub fn steps_left(
    machine: &[u64],
    words: &[u32],
    operands: &[Number],
    results: &[Number],
    answer: &mut [u64],
) -> u32 {
    call!(wethertide_steps_left: in machine in words in operands in results out answer)
}

pub fn lowest_step(
    machine: &[u64],
    words: &[u32],
    operands: &[Number],
    results: &[Number],
    answer: &mut [u64],
) -> u32 {
    call!(wethertide_lowest_step: in machine in words in operands in results out answer)
}

pub fn one_at_a_time(
    words: &[u32],
    operands: &[Number],
    results: &mut [Number],
    registers: &mut [Number],
) -> u32 {
    call!(wethertide_one_at_a_time: in words in operands out results out registers)
}

/// The log has three words a record: place, cell, pattern.
pub fn run(
    machine: &mut [u64],
    words: &[u32],
    operands: &[Number],
    results: &mut [Number],
    schedule: &[u8],
    log: &mut [u64],
    answer: &mut [u64],
) -> u32 {
    call!(wethertide_run: out machine in words in operands out results in schedule
        out log out answer)
}
