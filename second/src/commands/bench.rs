//! `bench`: the proved library against this program.

use super::{numeral, Outcome};

const ROUNDS: usize = 200;

pub fn bench(arguments: &[String]) -> Outcome {
    let rounds = match arguments {
        [] => ROUNDS,
        [flag, rounds] if flag == "--rounds" => numeral(rounds)?,
        _ => return Err("needs [--rounds N]".into()),
    };
    measured(rounds)
}

#[cfg(feature = "proved")]
fn measured(rounds: usize) -> Outcome {
    Ok(second::bench::bench(rounds.max(1))?.into())
}

#[cfg(not(feature = "proved"))]
fn measured(_: usize) -> Outcome {
    Err("this build has no proved library; build with `--features proved`".into())
}
