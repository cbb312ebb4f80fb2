//! Times of two sides, taken in turn.

use super::work::{Work, Works, GROUPS};
use std::time::Instant;

/// Does one round's works and answers how many items they had.
pub type Side = Box<dyn FnMut(usize) -> usize>;

pub fn side(works: &Works, mut act: impl FnMut(&Work) -> usize + 'static) -> Side {
    let works = works.clone();
    Box::new(move |round| works.group(round).iter().map(&mut act).sum())
}

/// What both sides do; the proved one may do it again with a call that only carries the machine
/// in and out as words, after each call.
pub struct Task {
    pub proved: Side,
    pub twin: Side,
    pub carrying_too: Option<Side>,
}

/// Nanoseconds for one item.
#[derive(Clone, Copy)]
pub struct Times {
    /// Without the carrying.
    pub proved: f64,
    pub carrying: f64,
    pub twin: f64,
}

/// Medians of both sizes of a task, every round taking all sides of both in turn.
pub fn medians(tasks: &mut [Task; 2], rounds: usize) -> [Times; 2] {
    let mut rows: [Vec<Times>; 2] = [Vec::new(), Vec::new()];
    for round in 0..rounds {
        for (task, times) in tasks.iter_mut().zip(&mut rows) {
            times.push(task.one_round(round));
        }
    }
    rows.map(|times| Times {
        proved: median(&times, |times| times.proved),
        carrying: median(&times, |times| times.carrying),
        twin: median(&times, |times| times.twin),
    })
}

impl Task {
    /// The sides change places every second time that a group of works comes round.
    fn one_round(&mut self, round: usize) -> Times {
        let twin_first = (round / GROUPS).is_multiple_of(2).then(|| time(&mut self.twin, round));
        let proved = time(&mut self.proved, round);
        let carrying_too = self.carrying_too.as_mut().map(|side| time(side, round));
        let twin = twin_first.unwrap_or_else(|| time(&mut self.twin, round));
        let carrying = carrying_too.map_or(0.0, |both| both - proved);
        Times { proved: proved - carrying, carrying, twin }
    }
}

fn time(side: &mut Side, round: usize) -> f64 {
    let start = Instant::now();
    let items = side(round);
    start.elapsed().as_nanos() as f64 / items as f64
}

fn median(times: &[Times], part: fn(&Times) -> f64) -> f64 {
    let mut parts: Vec<f64> = times.iter().map(part).collect();
    parts.sort_by(f64::total_cmp);
    parts.get(parts.len() / 2).copied().unwrap_or(f64::NAN)
}
