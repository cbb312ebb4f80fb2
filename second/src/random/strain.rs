//! What makes an entry refuse: bad words, short areas, a damaged machine, rows of odd lengths.

use super::settings::number;
use super::{lists, machines, Prng};
use crate::entries::machine_words::NEXT_PLACE;
use crate::entries::{Call, Entry};
use crate::words::{Fields, Operation, CELL_LIMIT, LIST_LIMIT};

/// Several at once are wanted too: then the order of refusals is seen.
pub fn strain(prng: &mut Prng, call: &mut Call) {
    if !matches!(call.entry, Entry::ReadList | Entry::WriteList) {
        if prng.percent(25) {
            strain_list(prng, call);
        }
        if prng.percent(15) {
            strain_areas(prng, call);
        }
        if prng.percent(70) {
            let edges =
                [call.list.len(), call.operands.len(), call.results.len(), CELL_LIMIT, LIST_LIMIT];
            machines::damage(prng, &mut call.machine, &edges);
        }
        if prng.percent(5) {
            let junk = prng.number();
            call.machine.resize(prng.below(call.machine.len() + 4), junk);
        }
    }
    if prng.percent(10) {
        let junk = prng.number();
        call.answer.resize(prng.below(Entry::Step.answer_words() + 2), junk);
    }
}

/// Half of the bad words stand where the next issue finds them.
fn strain_list(prng: &mut Prng, call: &mut Call) {
    let next = call.machine[NEXT_PLACE] as usize;
    if prng.percent(50) && next < call.list.len() {
        lists::damage(prng, &mut call.list[next..=next]);
    } else if prng.percent(20) {
        call.list.truncate(prng.below(call.list.len() + 1));
    } else {
        damage_list(prng, &mut call.list);
    }
}

/// Bad words, or a list at its limit or one word beyond.
pub fn damage_list(prng: &mut Prng, list: &mut Vec<u32>) {
    if prng.percent(15) {
        let copy = Fields { operation: Operation::Ldr.number(), r1: 0, operand: 0 };
        let filler = list.last().copied().unwrap_or(copy.word());
        list.resize(LIST_LIMIT + prng.below(2), filler);
    }
    if prng.percent(85) {
        lists::damage(prng, list);
    }
}

fn strain_areas(prng: &mut Prng, call: &mut Call) {
    let filler = number(prng);
    let area = if prng.percent(50) { &mut call.operands } else { &mut call.results };
    let length = match prng.below(4) {
        0 => prng.below(area.len() + 1),
        1 => area.len().saturating_sub(1),
        2 => 0,
        _ => CELL_LIMIT - 1 + prng.below(4),
    };
    area.resize(length, filler);
}
