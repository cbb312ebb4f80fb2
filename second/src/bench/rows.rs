//! The rows of the table: what each measures, and the bars that are set for it.

use super::measure::{medians, side, Side, Task, Times};
use super::work::{Work, Works};
use crate::entries::machine_words::{words_of, MACHINE_WORDS};
use crate::entries::{Entry, RECORD_WORDS};
use crate::list_file;
use crate::machine::{Lent, Machine, Record, Step, REGISTERS};
use crate::numbers::Number;
use crate::one_at_a_time;
use crate::proved::library;
use crate::schedule;
use crate::words::{CellLimits, CELL_LIMIT, LIST_LIMIT};
use std::hint::black_box;

pub struct Row {
    name: &'static str,
    bar: Option<f64>,
    /// At full size and at a part of it.
    tasks: [Task; 2],
}

pub struct MeasuredRow {
    pub name: &'static str,
    pub bar: Option<f64>,
    pub full: Times,
    pub small: Times,
}

impl Row {
    pub fn measure(mut self, rounds: usize) -> MeasuredRow {
        let [full, small] = medians(&mut self.tasks, rounds);
        MeasuredRow { name: self.name, bar: self.bar, full, small }
    }
}

pub fn rows(random: &[Works; 2], periodic: &[Works; 2]) -> Vec<Row> {
    let row = |name, bar, works: &[Works; 2], task: fn(&Works) -> Task| {
        let [full, small] = works;
        Row { name, bar, tasks: [task(full), task(small)] }
    };
    vec![
        row("list read, a word", Some(1.5), random, read),
        row("list write, a word", Some(1.5), random, write),
        row("run, random schedule, a step", Some(1.25), random, run),
        row("run, periodic schedule, a step", Some(2.0), periodic, run),
        row("step by step, a step", Some(8.0), random, plain_steps),
        row("  twin tests good order too", None, random, checked_steps),
        row("one-at-a-time run, a word", Some(1.25), random, alone),
        row("good order, a test", None, random, good_order),
    ]
}

fn plain(proved: Side, twin: Side) -> Task {
    Task { proved, twin, carrying_too: None }
}

fn read(works: &Works) -> Task {
    let (mut words, mut answer) = (vec![0; LIST_LIMIT], [0; Entry::ReadList.answer_words()]);
    let proved = side(works, move |work| {
        black_box(library::read_list(&work.file, &mut words, &mut answer));
        work.list.len()
    });
    let mut words = vec![0; LIST_LIMIT];
    let twin = side(works, move |work| {
        let _ = black_box(list_file::read(black_box(&work.file), black_box(&mut words)));
        work.list.len()
    });
    plain(proved, twin)
}

fn write(works: &Works) -> Task {
    let longest = works.all().map(|work| work.file.len()).max().unwrap_or(0);
    let (mut bytes, mut answer) = (vec![0; longest], [0; Entry::WriteList.answer_words()]);
    let proved = side(works, move |work| {
        black_box(library::write_list(&work.list, &mut bytes, &mut answer));
        work.list.len()
    });
    let mut bytes = vec![0; longest];
    let twin = side(works, move |work| {
        let _ = black_box(list_file::write(black_box(&work.list), black_box(&mut bytes)));
        work.list.len()
    });
    plain(proved, twin)
}

/// The result cells of one side; nothing reads them, so runs leave them as they are.
fn cells() -> Vec<Number> {
    vec![Number::ZERO; CELL_LIMIT]
}

fn run(works: &Works) -> Task {
    let (mut results, mut answer) = (cells(), [0; Entry::Run.answer_words()]);
    let mut log = vec![0; LIST_LIMIT * RECORD_WORDS];
    let proved = side(works, move |work| {
        let mut machine = words_of(&work.machine);
        let Work { list, operands, schedule, .. } = work;
        library::run(&mut machine, list, operands, &mut results, schedule, &mut log, &mut answer);
        work.codes.len()
    });
    let mut results = cells();
    let mut log = vec![Record { place: 0, cell: 0, number: Number::ZERO }; LIST_LIMIT];
    let twin = side(works, move |work| {
        let mut machine = work.machine;
        let answer = schedule::run(
            &mut machine,
            &mut lent(work, &mut results),
            black_box(&work.schedule),
            black_box(&mut log),
        );
        black_box((machine, answer));
        work.codes.len()
    });
    plain(proved, twin)
}

fn lent<'a>(work: &'a Work, results: &'a mut [Number]) -> Lent<'a> {
    Lent { list: &work.list, operands: &work.operands, results }
}

fn plain_steps(works: &Works) -> Task {
    steps(works, |machine, lent, code| {
        Step::of_code(code).is_some_and(|step| machine.take(lent, step).is_ok())
    })
}

fn checked_steps(works: &Works) -> Task {
    steps(works, |machine, lent, code| machine.step(lent, code).is_ok())
}

fn steps(
    works: &Works,
    twin_step: impl Fn(&mut Machine, &mut Lent, u32) -> bool + 'static,
) -> Task {
    let mut results = cells();
    let proved = side(works, move |work| proved_steps(work, &mut results, |_| {}));
    let mut results = cells();
    let carrying_too = side(works, move |work| proved_steps(work, &mut results, only_carried));
    let mut results = cells();
    let twin = side(works, move |work| {
        let mut machine = work.machine;
        let mut lent = lent(work, &mut results);
        for &code in &work.codes {
            black_box(twin_step(&mut machine, &mut lent, black_box(code)));
        }
        work.codes.len()
    });
    Task { proved, twin, carrying_too: Some(carrying_too) }
}

/// What a step released.
const RELEASED_WORDS: usize = Entry::Step.answer_words();

fn proved_steps(work: &Work, results: &mut [Number], after: impl Fn(&mut [u64])) -> usize {
    let (mut machine, mut released) = (words_of(&work.machine), [0; RELEASED_WORDS]);
    for &code in &work.codes {
        library::step(&mut machine, &work.list, &work.operands, results, code, &mut released);
        after(&mut machine);
    }
    work.codes.len()
}

/// A step with a list of 4,097 words is refused with 1 before anything is looked at, so that it
/// only carries the machine in; a fresh machine for an empty list is only carried out.
fn only_carried(machine: &mut [u64]) {
    static LONG_LIST: [u32; LIST_LIMIT + 1] = [0; LIST_LIMIT + 1];
    library::step(machine, &LONG_LIST, &[], &mut [], 0, &mut [0; RELEASED_WORDS]);
    library::fresh(&[], &[], &[], &[Number::ZERO; REGISTERS], black_box(&mut [0; MACHINE_WORDS]));
}

fn alone(works: &Works) -> Task {
    let mut results = cells();
    let proved = side(works, move |work| {
        let mut registers = work.starts;
        library::one_at_a_time(&work.list, &work.operands, &mut results, &mut registers);
        black_box(registers);
        work.list.len()
    });
    let mut results = cells();
    let twin = side(works, move |work| {
        let _ =
            black_box(one_at_a_time::run(&mut lent(work, &mut results), black_box(work.starts)));
        work.list.len()
    });
    plain(proved, twin)
}

/// The carrying alone: drained, where the next place already says no.
fn good_order(works: &Works) -> Task {
    static RESULTS: [Number; CELL_LIMIT] = [Number::ZERO; CELL_LIMIT];
    let test = |work: &Work, words: &[u64; MACHINE_WORDS]| {
        black_box(library::good_order(words, &work.list, &work.operands, &RESULTS))
    };
    let proved = side(works, move |work| {
        work.stands.iter().for_each(|(_, words)| _ = test(work, words));
        work.stands.len()
    });
    let carrying_too = side(works, move |work| {
        for (_, words) in &work.stands {
            test(work, words);
            black_box(library::drained(words, &[]));
        }
        work.stands.len()
    });
    let twin = side(works, move |work| {
        let limits = CellLimits::of_areas(work.operands.len(), RESULTS.len());
        for (machine, _) in &work.stands {
            black_box(black_box(machine).in_good_order(work.list.len(), black_box(limits)));
        }
        work.stands.len()
    });
    Task { proved, twin, carrying_too: Some(carrying_too) }
}
