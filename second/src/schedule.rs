//! The run of a schedule with a release log (01, "The list file and the schedule").

use crate::machine::{Lent, Machine, Record, Step};
use crate::refusal::Refusal;
use crate::seven_bit;

#[derive(Clone, Copy, Debug, PartialEq, Eq)]
pub struct RunAnswer {
    pub steps: usize,
    /// Byte place of the refused code, or the schedule's length.
    pub place: usize,
    pub refusal: Result<(), Refusal>,
    pub records: usize,
}

/// Takes codes until the end or the first refusal; the steps before a refusal stand. Good order
/// is tested once: every step keeps it.
pub fn run(
    machine: &mut Machine,
    lent: &mut Lent,
    schedule: &[u8],
    log: &mut [Record],
) -> RunAnswer {
    let mut answer =
        RunAnswer { steps: 0, place: 0, refusal: machine.check_with(lent), records: 0 };
    while answer.refusal.is_ok() && answer.place < schedule.len() {
        match take_next(machine, lent, schedule, log, &mut answer) {
            Ok(()) => answer.steps += 1,
            Err(refusal) => answer.refusal = Err(refusal),
        }
    }
    answer
}

/// One code: its step and the place after it.
fn take_next(
    machine: &mut Machine,
    lent: &mut Lent,
    schedule: &[u8],
    log: &mut [Record],
    answer: &mut RunAnswer,
) -> Result<(), Refusal> {
    let (code, after) = seven_bit::read(schedule, answer.place)?;
    let step = Step::of_code(u32::from(code)).ok_or(Refusal::UnknownStep)?;
    if let Step::Release(index) = step {
        // Only a permitted release can find the log full, and a full log must stop the release.
        let record = machine.release_record(index).ok_or(Refusal::NotPermitted)?;
        *log.get_mut(answer.records).ok_or(Refusal::TooSmall)? = record;
        answer.records += 1;
    }
    machine.take(lent, step)?;
    answer.place = after;
    Ok(())
}
