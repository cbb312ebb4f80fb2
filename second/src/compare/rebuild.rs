//! A list without some of its instructions, and the schedule without their steps.
//!
//! Other instructions may then take other buffers and stations, so each step that stays is found
//! again by the instruction it works for.

use crate::list_file;
use crate::machine::{Giver, Lent, Machine, Step, REGISTERS};
use crate::numbers::Number;
use crate::random::schedules;
use crate::report::read_operands;
use crate::seven_bit;
use crate::words::CELL_LIMIT;
use std::mem::discriminant;
use std::ops::Range;

/// The new list and schedule files; none if a file cannot be followed.
pub fn without(
    (list, operands, schedule): (&[u8], &[u8], &[u8]),
    removed: Range<usize>,
) -> Option<(Vec<u8>, Vec<u8>)> {
    let mut words = list_file::read_words(list).ok()?;
    let numbers = read_operands(operands).ok()?;
    let (deeds, rest) = deeds(&words, &numbers, schedule)?;
    words.drain(removed.clone());
    let kept = deeds.into_iter().filter(|deed| !removed.contains(&deed.place)).map(|deed| {
        let shift = if deed.place < removed.start { 0 } else { removed.len() };
        Deed { place: deed.place - shift, step: deed.step }
    });
    let mut new_schedule = schedules::file(&codes(&words, &numbers, kept)?);
    new_schedule.extend_from_slice(rest);
    Some((list_file::encode(&words), new_schedule))
}

/// A step, and the place of the instruction it works for.
struct Deed {
    place: usize,
    step: Step,
}

/// The deeds up to the first refusal, and the bytes from there on.
fn deeds<'a>(
    list: &[u32],
    operands: &[Number],
    schedule: &'a [u8],
) -> Option<(Vec<Deed>, &'a [u8])> {
    let mut deeds = Vec::new();
    let mut place = 0;
    on_fresh_machine(list, operands, |machine, lent| {
        while let Ok((code, after)) = seven_bit::read(schedule, place) {
            let Some(step) = Step::of_code(u32::from(code)) else {
                break;
            };
            let served = machine.place_served(step);
            if machine.take(lent, step).is_err() {
                break;
            }
            deeds.extend(served.map(|place| Deed { place, step }));
            place = after;
        }
    })?;
    Some((deeds, &schedule[place..]))
}

/// The codes that do the deeds on the new list; a deed that is now impossible is left out.
fn codes(list: &[u32], operands: &[Number], deeds: impl Iterator<Item = Deed>) -> Option<Vec<u16>> {
    let mut codes = Vec::new();
    on_fresh_machine(list, operands, |machine, lent| {
        for deed in deeds {
            let found = Step::all()
                .filter(|&step| same_kind(step, deed.step))
                .find(|&step| machine.place_served(step) == Some(deed.place));
            if let Some(step) = found.filter(|&step| machine.take(lent, step).is_ok()) {
                codes.push(step.code() as u16);
            }
        }
    })?;
    Some(codes)
}

fn on_fresh_machine(
    list: &[u32],
    operands: &[Number],
    work: impl FnOnce(&mut Machine, &mut Lent),
) -> Option<()> {
    let mut lent = Lent { list, operands, results: &mut [Number::ZERO; CELL_LIMIT] };
    let (mut machine, answer) = Machine::fresh(&lent, [Number::ZERO; REGISTERS]);
    answer.ok()?;
    work(&mut machine, &mut lent);
    Some(())
}

/// A buffer's grant and a station's are different: cell arithmetic has one of each.
fn same_kind(one: Step, other: Step) -> bool {
    let by_station = |step| matches!(step, Step::Grant(Giver::Station(_)));
    discriminant(&one) == discriminant(&other) && by_station(one) == by_station(other)
}
