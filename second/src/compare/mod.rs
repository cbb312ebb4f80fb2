//! Random sessions: the report of another program, demand 3 of this program's own machine, and
//! the entries of the proved library.

pub mod any_order;
mod cut;
pub mod entries;
mod explain;
mod explain_call;
mod rebuild;
mod shrink;
mod shrink_call;
mod stage;

use crate::entries::Answering;
use crate::machine::Machine;
use crate::random::sessions::{session, Session};
use crate::random::Prng;
use stage::{Outputs, Stage};
use std::path::Path;

/// What a comparison found, as text.
pub enum Finding {
    AllAgree(String),
    Difference(String),
}

/// Shrinking stops after so many runs of the other program.
const SHRINK_RUNS: usize = 3_000;

/// Runs the sessions; without a library its entries are not called.
pub fn compare(
    program: &Path,
    library: Option<Answering>,
    count: usize,
    seed: u64,
) -> Result<Finding, String> {
    let stage = Stage::new(program)?;
    let mut seeds = Prng::new(seed);
    for number in 1..=count {
        let mut prng = Prng::new(seeds.number());
        if let Some(text) = report_difference(&stage, &session(&mut prng))? {
            return Ok(differs(seed, number, count, &text));
        }
        let by_entries = |prng: &mut Prng| library.and_then(|call| entries::difference(prng, call));
        let failure = any_order::failure(&mut prng, Machine::step);
        if let Some(text) = failure.or_else(|| by_entries(&mut prng)) {
            stage.remove()?;
            return Ok(differs(seed, number, count, &text));
        }
    }
    stage.remove()?;
    Ok(Finding::AllAgree(match library {
        Some(_) => {
            let calls = count * entries::CALLS;
            format!("seed {seed}: {count} sessions, {calls} entry calls, no difference\n")
        }
        None => format!(
            "seed {seed}: {count} sessions, no difference; entries not compared: built without the feature `proved`\n"
        ),
    }))
}

fn differs(seed: u64, number: usize, count: usize, text: &str) -> Finding {
    Finding::Difference(format!("seed {seed}: session {number} of {count} differs\n{text}"))
}

/// The smallest case found, with the two outputs; its files stay where the text says.
fn report_difference(stage: &Stage, session: &Session) -> Result<Option<String>, String> {
    if !stage.outputs(session)?.differ() {
        return Ok(None);
    }
    let mut runs = 0;
    let smallest = shrink::shrink(session, |smaller| {
        runs += 1;
        runs <= SHRINK_RUNS && stage.outputs(smaller).is_ok_and(|outputs| outputs.differ())
    });
    let outputs: Outputs = stage.outputs(&smallest)?;
    let folder = stage.folder().display();
    Ok(Some(format!(
        "the report differs; smallest case found, kept in {folder}:\n{}{}",
        explain::case(&smallest),
        explain::outputs(&outputs),
    )))
}
