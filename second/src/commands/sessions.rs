//! Whole sessions: `report` and `compare`.

use super::{numeral, Outcome, Output};
use second::compare::{self, Finding};
use second::entries::Answering;
use second::report::report_names;
use std::path::Path;

pub fn report(names: &[String]) -> Outcome {
    Ok(report_names(names).into())
}

/// The proved library, in a build that has it.
#[cfg(feature = "proved")]
const LIBRARY: Option<Answering> = Some(second::proved::answer);
#[cfg(not(feature = "proved"))]
const LIBRARY: Option<Answering> = None;

/// Where the kit leaves the report program, seen from the repository's root.
const REPORT: &str = "target/bin/report";

pub fn compare(arguments: &[String]) -> Outcome {
    let (program, rest) = match arguments {
        [flag, program, rest @ ..] if flag == "--report" => (program.as_str(), rest),
        rest => (REPORT, rest),
    };
    let [count, seed] = rest else {
        return Err("needs [--report PATH] N SEED".into());
    };
    let finding = compare::compare(Path::new(program), LIBRARY, numeral(count)?, numeral(seed)?)?;
    Ok(match finding {
        Finding::AllAgree(text) => text.into(),
        Finding::Difference(text) => Output { bytes: text.into(), status: 1 },
    })
}
