//! Random schedules, most of them driven by a machine of our own.

use super::{bytes, Prng};
use crate::machine::{CodeRange, Lent, Machine, Step, BUFFERS, REGISTERS, STEP_CODES};
use crate::numbers::Number;
use crate::seven_bit;
use std::collections::BTreeSet;

/// How the next of the permitted steps is chosen.
#[derive(Clone, Copy)]
pub enum Choice {
    Any,
    Lowest,
    Highest,
    /// Issue when permitted, nine times in ten, so that the machine fills up.
    MostlyIssue,
}

impl Choice {
    pub fn random(prng: &mut Prng) -> Choice {
        prng.pick(&CHOICES)
    }

    /// One of the steps that a machine in good order permits; none when it is drained.
    pub fn step(self, prng: &mut Prng, machine: &Machine, lent: &Lent) -> Option<Step> {
        choose(prng, self, &sorted_steps(machine, lent).0)
    }
}

/// A step of something that is there but not ready; none when all that is there is ready.
pub fn blocked_step(prng: &mut Prng, machine: &Machine, lent: &Lent) -> Option<Step> {
    choose(prng, Choice::Any, &sorted_steps(machine, lent).1)
}

/// Codes of permitted steps to the drained machine, or up to one that is known but not permitted
/// then; none if the list is refused.
pub fn driven(prng: &mut Prng, lent: &mut Lent) -> Vec<u16> {
    let choice = Choice::random(prng);
    let stop_percent = prng.pick(&[0, 0, 0, 2, 10]);
    let (mut machine, answer) = Machine::fresh(lent, [Number::ZERO; REGISTERS]);
    let mut codes = Vec::new();
    if answer.is_err() {
        return codes;
    }
    loop {
        let (permitted, blocked) = sorted_steps(&machine, lent);
        if !blocked.is_empty() && prng.percent(stop_percent) {
            codes.push(prng.pick(&blocked).code() as u16);
            return codes;
        }
        let Some(step) = choose(prng, choice, &permitted) else {
            return codes;
        };
        if machine.take(lent, step).is_err() {
            return codes;
        }
        codes.push(step.code() as u16);
    }
}

/// The steps that a machine in good order permits, lowest code first, and those of a buffer,
/// station, store buffer or instruction that is there but not ready.
fn sorted_steps(machine: &Machine, lent: &Lent) -> (Vec<Step>, Vec<Step>) {
    let limits = lent.limits();
    Step::all()
        .filter(|&step| machine.place_served(step).is_some())
        .partition(|&step| machine.permits(lent.list, limits, step))
}

const CHOICES: [Choice; 5] =
    [Choice::Any, Choice::Any, Choice::Lowest, Choice::Highest, Choice::MostlyIssue];

fn choose(prng: &mut Prng, choice: Choice, steps: &[Step]) -> Option<Step> {
    let (&lowest, &highest) = (steps.first()?, steps.last()?);
    Some(match choice {
        Choice::Any => prng.pick(steps),
        Choice::Lowest => lowest,
        Choice::Highest => highest,
        Choice::MostlyIssue if prng.percent(90) => lowest,
        Choice::MostlyIssue => prng.pick(steps),
    })
}

/// Any codes at all, known and unknown.
pub fn any(prng: &mut Prng) -> Vec<u16> {
    let number_limit = usize::from(seven_bit::GREATEST) + 1;
    // Issue alone, and up to the unknown code above the arrivals.
    let issue_limit = Step::Issue.code() as usize + 1;
    let arrival_limit = Step::Arrival(BUFFERS - 1).code() as usize + 2;
    let mixes: [&[usize]; 3] = [
        &[Step::CODE_LIMIT],
        &[Step::CODE_LIMIT, arrival_limit, issue_limit],
        &[number_limit, Step::CODE_LIMIT, issue_limit],
    ];
    let mix = prng.pick(&mixes);
    (0..prng.below(30))
        .map(|_| {
            let limit = prng.pick(mix);
            prng.below(limit) as u16
        })
        .collect()
}

/// Numbers at the edges of a byte and of the groups of a file.
const LARGE_CODES: [u32; 5] = [127, 128, 255, 16_384, 65_535];

/// Unknown codes: the neighbours of each range of known ones, and a few large ones.
pub fn stray_codes() -> Vec<u16> {
    let neighbours = |range: &CodeRange| {
        let known = range.codes();
        [known.start.checked_sub(1), Some(known.end)]
    };
    let numbers = STEP_CODES.iter().flat_map(neighbours).flatten().chain(LARGE_CODES);
    let unknown: BTreeSet<u32> = numbers.filter(|&code| Step::of_code(code).is_none()).collect();
    unknown.into_iter().map(|code| code as u16).collect()
}

/// Cuts the schedule or puts a stray code into it.
pub fn damage(prng: &mut Prng, codes: &mut Vec<u16>) {
    let place = prng.below(codes.len() + 1);
    match prng.below(4) {
        0 => codes.truncate(place),
        1 => codes.insert(place, prng.pick(&stray_codes())),
        2 => codes.insert(place, prng.below(Step::CODE_LIMIT) as u16),
        _ if place < codes.len() => drop(codes.remove(place)),
        _ => codes.push(Step::Issue.code() as u16),
    }
}

pub fn file(codes: &[u16]) -> Vec<u8> {
    let mut file = Vec::with_capacity(codes.len());
    for &code in codes {
        seven_bit::append(&mut file, code);
    }
    file
}

pub fn damage_file(prng: &mut Prng, file: &mut Vec<u8>) {
    if prng.percent(5) {
        bytes::fill_to_limit(prng, file);
    } else {
        bytes::damage(prng, file);
    }
}
