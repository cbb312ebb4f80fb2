//! Both sides give the same answers to what is measured.

use super::work::{Work, Works};
use crate::compare::entries::Answered;
use crate::entries::machine_words::words_of;
use crate::entries::{own, Call, Entry, RECORD_WORDS};
use crate::numbers::Number;
use crate::proved;
use crate::words::{CELL_LIMIT, LIST_LIMIT};

/// Names the first entry whose answers differ.
pub fn check(works: &Works) -> Result<(), String> {
    works.all().try_for_each(|work| {
        for entry in [Entry::ReadList, Entry::WriteList, Entry::OneAtATime, Entry::Run] {
            same(&call(work, entry))?;
        }
        same_steps(work)
    })
}

fn same(call: &Call) -> Result<Call, String> {
    let [own, other] = [own::answer, proved::answer].map(|answer| Answered::by(answer, call));
    if own != other {
        let name = call.entry.name();
        return Err(format!("{name} does not answer as second does; `second compare` tells more"));
    }
    Ok(own.lent)
}

fn call(work: &Work, entry: Entry) -> Call {
    let mut call = Call::of(entry);
    call.answer = vec![9; Entry::Step.answer_words()];
    call.list = work.list.clone();
    call.file = match entry {
        Entry::ReadList | Entry::WriteList => work.file.clone(),
        _ => work.schedule.clone(),
    };
    call.operands = work.operands.clone();
    call.results = vec![Number::ZERO; CELL_LIMIT];
    call.starts = work.starts.to_vec();
    call.machine = words_of(&work.machine).to_vec();
    call.log = vec![9; LIST_LIMIT * RECORD_WORDS];
    call
}

/// Every step, one call each, and good order of the machines on the way.
fn same_steps(work: &Work) -> Result<(), String> {
    let mut step = call(work, Entry::Step);
    (step.file, step.log) = Default::default();
    for &code in &work.codes {
        step.code = code;
        step = same(&step)?;
    }
    for (_, words) in &work.stands {
        let machine = words.to_vec();
        same(&Call { entry: Entry::GoodOrder, machine, ..step.clone() })?;
    }
    Ok(())
}
