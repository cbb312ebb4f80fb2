//! The proved library against this program's own machine, in one process.

mod agree;
mod measure;
mod rows;
mod table;
mod work;

use crate::words::LIST_LIMIT;
use work::Works;

/// Growth compares the full size with this part of it.
const SMALL_PART: usize = 16;

/// The table of medians over so many rounds; an error if the two sides do not agree.
pub fn bench(rounds: usize) -> Result<String, String> {
    let sizes = [(LIST_LIMIT, 1), (LIST_LIMIT / SMALL_PART, SMALL_PART)];
    let random = sizes.map(|(length, lists)| Works::random(length, lists));
    let periodic = sizes.map(|(length, lists)| Works::periodic(length, lists));
    for works in random.iter().chain(&periodic) {
        agree::check(works)?;
    }
    let measured = rows::rows(&random, &periodic).into_iter().map(|row| row.measure(rounds));
    Ok(table::text(&measured.collect::<Vec<_>>()))
}
