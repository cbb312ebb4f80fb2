//! The calls answered by the proved library.

mod guarded;
pub mod library;

use crate::entries::{Call, Entry, WROTE_BEYOND};
use crate::numbers::Number;
use guarded::Guarded;

const GUARD: u64 = 0x5EED_BEAD_5EED_BEAD;

pub fn answer(call: &mut Call) -> u32 {
    let number = Number::from_pattern(GUARD);
    let mut machine = Guarded::new(&mut call.machine, GUARD);
    let mut list = Guarded::new(&mut call.list, GUARD as u32);
    let mut results = Guarded::new(&mut call.results, number);
    let mut starts = Guarded::new(&mut call.starts, number);
    let mut file = Guarded::new(&mut call.file, GUARD as u8);
    let mut log = Guarded::new(&mut call.log, GUARD);
    let mut answer = Guarded::new(&mut call.answer, GUARD);
    let returned = lend(
        (call.entry, call.code, &call.operands),
        (machine.lent(), list.lent(), results.lent(), starts.lent(), file.lent()),
        (log.lent(), answer.lent()),
    );
    let words = [machine.close(), log.close(), answer.close()];
    let numbers = [results.close(), starts.close()];
    let intact = [list.close(), file.close()].iter().chain(&words).chain(&numbers).all(|&row| row);
    if intact {
        returned
    } else {
        WROTE_BEYOND
    }
}

type Rows<'a> = (&'a mut [u64], &'a mut [u32], &'a mut [Number], &'a mut [Number], &'a mut [u8]);

fn lend(
    (entry, code, operands): (Entry, u32, &[Number]),
    (machine, list, results, starts, file): Rows,
    (log, answer): (&mut [u64], &mut [u64]),
) -> u32 {
    match entry {
        Entry::ReadList => library::read_list(file, list, answer),
        Entry::WriteList => library::write_list(list, file, answer),
        Entry::Fresh => library::fresh(list, operands, results, starts, machine),
        Entry::Step => library::step(machine, list, operands, results, code, answer),
        Entry::GoodOrder => u32::from(library::good_order(machine, list, operands, results)),
        Entry::Drained => u32::from(library::drained(machine, list)),
        Entry::StepsLeft => library::steps_left(machine, list, operands, results, answer),
        Entry::LowestStep => library::lowest_step(machine, list, operands, results, answer),
        Entry::OneAtATime => library::one_at_a_time(list, operands, results, starts),
        Entry::Run => library::run(machine, list, operands, results, file, log, answer),
    }
}
