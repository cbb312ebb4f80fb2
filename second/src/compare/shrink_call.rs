//! A smaller call that is still answered in two ways.

use super::cut::{alter, cut, row_way, Way};
use crate::entries::machine_words::place_words;
use crate::entries::Call;
use crate::numbers::Number;
use std::ops::Range;

const WAYS: [Way<Call>; 7] = [
    Way { units: |call| call.list.len(), without: without_instructions },
    row_way!(list),
    row_way!(file),
    row_way!(operands),
    row_way!(results),
    row_way!(starts),
    row_way!(log),
];

/// Cuts and simplifies as long as `differs` still holds.
pub fn shrink(call: &Call, mut differs: impl FnMut(&Call) -> bool) -> Call {
    let mut best = call.clone();
    loop {
        let before = best.clone();
        for way in &WAYS {
            cut(&mut best, way, &mut differs);
        }
        simplify_machine(&mut best, &mut differs);
        simplify_numbers(&mut best, &mut differs);
        if best == before {
            return best;
        }
    }
}

/// The list without some words; the places after them move down with their words.
fn without_instructions(call: &Call, range: Range<usize>) -> Option<Call> {
    let mut smaller = call.clone();
    smaller.list.drain(range.clone());
    for at in place_words() {
        if let Some(place) = smaller.machine.get_mut(at) {
            let moved = place.saturating_sub(range.len() as u64);
            *place = if *place >= range.end as u64 { moved } else { *place };
        }
    }
    Some(smaller)
}

/// Frees slots by their state, then makes other words 0 or 1.
fn simplify_machine(best: &mut Call, differs: &mut impl FnMut(&Call) -> bool) {
    for at in 0..best.machine.len() {
        for value in [0, 1] {
            if alter(best, differs, |simpler| simpler.machine[at] = value) {
                break;
            }
        }
    }
}

/// Makes the numbers lent +0 or 1.
fn simplify_numbers(best: &mut Call, differs: &mut impl FnMut(&Call) -> bool) {
    let rows: [fn(&mut Call) -> &mut Vec<Number>; 3] =
        [|call| &mut call.operands, |call| &mut call.results, |call| &mut call.starts];
    for row in rows {
        for index in 0..row(best).len() {
            for number in [0.0, 1.0] {
                if alter(best, differs, |simpler| row(simpler)[index] = Number(number)) {
                    break;
                }
            }
        }
    }
}
