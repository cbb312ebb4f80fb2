//! The calls answered by this program's own machine.

use super::machine_words::{machine_of, words_of, MACHINE_WORDS};
use super::{Call, Entry, RECORD_WORDS};
use crate::list_file;
use crate::machine::{Machine, Record, Step, REGISTERS};
use crate::numbers::Number;
use crate::one_at_a_time;
use crate::refusal::Refusal;
use crate::schedule;
use crate::words::{check_list, CellLimits};

pub fn answer(call: &mut Call) -> u32 {
    if short(call) {
        return match call.entry {
            Entry::GoodOrder | Entry::Drained => 0,
            _ => Refusal::TooSmall.number(),
        };
    }
    match call.entry {
        Entry::ReadList => read_list(call),
        Entry::WriteList => write_list(call),
        Entry::Fresh => fresh(call),
        Entry::Step => step(call),
        Entry::GoodOrder => {
            let (machine, length) = (machine_of(&call.machine), call.list.len());
            u32::from(machine.in_good_order(length, call.lent().limits()))
        }
        Entry::Drained => u32::from(machine_of(&call.machine).drained(call.list.len())),
        Entry::StepsLeft => steps_left(call),
        Entry::LowestStep => lowest_step(call),
        Entry::OneAtATime => one_at_a_time(call),
        Entry::Run => run(call),
    }
}

/// Whether a row has no room for what it is to hold, which is found out before anything else.
fn short(call: &Call) -> bool {
    let (machine, starts) = match call.entry {
        Entry::ReadList | Entry::WriteList => (0, 0),
        Entry::OneAtATime => (0, REGISTERS),
        Entry::Fresh => (MACHINE_WORDS, REGISTERS),
        Entry::Step
        | Entry::GoodOrder
        | Entry::Drained
        | Entry::StepsLeft
        | Entry::LowestStep
        | Entry::Run => (MACHINE_WORDS, 0),
    };
    let answer = call.entry.answer_words();
    call.machine.len() < machine || call.answer.len() < answer || call.starts.len() < starts
}

/// Stores the values; what the row has beyond them stays.
fn put<T: Copy>(row: &mut [T], values: &[T]) {
    row.iter_mut().zip(values).for_each(|(old, &new)| *old = new);
}

fn read_list(call: &mut Call) -> u32 {
    let answer = list_file::read(&call.file, &mut call.list);
    let place = answer.map_or_else(|fault| fault.place, |_| call.file.len());
    put(&mut call.answer, &[answer.unwrap_or(0) as u64, place as u64]);
    Refusal::number_of(&answer.map_err(|fault| fault.refusal))
}

/// The place is the list check's.
fn write_list(call: &mut Call) -> u32 {
    let answer = list_file::write(&call.list, &mut call.file);
    let place = check_list(&call.list, CellLimits::NO_AREAS)
        .map_or_else(|fault| fault.place, |()| call.list.len());
    put(&mut call.answer, &[answer.unwrap_or(0) as u64, place as u64]);
    Refusal::number_of(&answer)
}

fn four_starts(call: &Call) -> [Number; REGISTERS] {
    std::array::from_fn(|index| call.starts[index])
}

fn fresh(call: &mut Call) -> u32 {
    let starts = four_starts(call);
    let (machine, answer) = Machine::fresh(&call.lent(), starts);
    put(&mut call.machine, &words_of(&machine));
    Refusal::number_of(&answer)
}

fn step(call: &mut Call) -> u32 {
    let (mut machine, code) = (machine_of(&call.machine), call.code);
    let record = match Step::of_code(code) {
        Some(Step::Release(index)) => machine.release_record(index),
        _ => None,
    };
    let answer = machine.step(&mut call.lent(), code);
    let released = match record.filter(|_| answer.is_ok()) {
        Some(record) => {
            let [place, cell, pattern] = record_words(&record);
            [1, place, cell, pattern]
        }
        None => [0; Entry::Step.answer_words()],
    };
    if answer.is_ok() {
        put(&mut call.machine, &words_of(&machine));
        put(&mut call.answer, &released);
    }
    Refusal::number_of(&answer)
}

fn record_words(record: &Record) -> [u64; RECORD_WORDS] {
    [record.place as u64, record.cell as u64, record.number.pattern()]
}

fn steps_left(call: &mut Call) -> u32 {
    let machine = machine_of(&call.machine);
    let answer = machine.steps_left(&call.lent());
    put(&mut call.answer, &[answer.unwrap_or(0) as u64]);
    Refusal::number_of(&answer)
}

fn lowest_step(call: &mut Call) -> u32 {
    let machine = machine_of(&call.machine);
    let answer = machine.lowest_step(&call.lent());
    let told = answer.unwrap_or(None).map_or([0, 0], |code| [1, u64::from(code)]);
    put(&mut call.answer, &told);
    Refusal::number_of(&answer)
}

fn one_at_a_time(call: &mut Call) -> u32 {
    let starts = four_starts(call);
    let (registers, answer) = one_at_a_time::run(&mut call.lent(), starts);
    put(&mut call.starts, &registers);
    Refusal::number_of(&answer)
}

fn run(call: &mut Call) -> u32 {
    let mut machine = machine_of(&call.machine);
    let room = call.log.len() / RECORD_WORDS;
    let mut log = vec![Record { place: 0, cell: 0, number: Number::ZERO }; room];
    let schedule = std::mem::take(&mut call.file);
    let answer = schedule::run(&mut machine, &mut call.lent(), &schedule, &mut log);
    call.file = schedule;
    for (words, record) in call.log.chunks_exact_mut(RECORD_WORDS).zip(&log[..answer.records]) {
        words.copy_from_slice(&record_words(record));
    }
    if answer.steps > 0 {
        put(&mut call.machine, &words_of(&machine));
    }
    put(&mut call.answer, &[answer.steps, answer.place, answer.records].map(|count| count as u64));
    Refusal::number_of(&answer.refusal)
}
