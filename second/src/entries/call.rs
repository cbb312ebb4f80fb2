//! One call of an entry with everything that it is lent.

use super::RECORD_WORDS;
use crate::machine::Lent;
use crate::numbers::Number;

#[derive(Clone, Copy, Debug, PartialEq, Eq)]
pub enum Entry {
    ReadList,
    WriteList,
    Fresh,
    Step,
    GoodOrder,
    Drained,
    StepsLeft,
    LowestStep,
    OneAtATime,
    Run,
}

impl Entry {
    pub const ALL: [Entry; 10] = [
        Entry::ReadList,
        Entry::WriteList,
        Entry::Fresh,
        Entry::Step,
        Entry::GoodOrder,
        Entry::Drained,
        Entry::StepsLeft,
        Entry::LowestStep,
        Entry::OneAtATime,
        Entry::Run,
    ];

    /// The name of its C function.
    pub fn name(self) -> &'static str {
        match self {
            Entry::ReadList => "wethertide_read_list",
            Entry::WriteList => "wethertide_write_list",
            Entry::Fresh => "wethertide_fresh",
            Entry::Step => "wethertide_step",
            Entry::GoodOrder => "wethertide_good_order",
            Entry::Drained => "wethertide_drained",
            Entry::StepsLeft => "wethertide_steps_left",
            Entry::LowestStep => "wethertide_lowest_step",
            Entry::OneAtATime => "wethertide_one_at_a_time",
            Entry::Run => "wethertide_run",
        }
    }

    /// Words of its answer beyond the one returned.
    pub const fn answer_words(self) -> usize {
        match self {
            Entry::Fresh | Entry::GoodOrder | Entry::Drained | Entry::OneAtATime => 0,
            Entry::StepsLeft => 1,
            Entry::ReadList | Entry::WriteList | Entry::LowestStep => 2,
            Entry::Run => 3,
            Entry::Step => 1 + RECORD_WORDS,
        }
    }
}

/// An entry and the rows it is lent; those that it does not take stay empty. Two are equal when
/// all they hold is the same in 01's sense.
#[derive(Clone, Debug, PartialEq)]
pub struct Call {
    pub entry: Entry,
    pub machine: Vec<u64>,
    /// The list; for the reader the words it may write.
    pub list: Vec<u32>,
    pub operands: Vec<Number>,
    pub results: Vec<Number>,
    /// Start numbers; the one-at-a-time run leaves its registers here.
    pub starts: Vec<Number>,
    pub code: u32,
    /// A list file or a schedule; for the writer the bytes it may write.
    pub file: Vec<u8>,
    /// The release log, `RECORD_WORDS` to a record.
    pub log: Vec<u64>,
    /// Answers beyond the one returned; for a step what it released.
    pub answer: Vec<u64>,
}

/// Takes a call: alters what is lent and returns the refusal number, or 0 and 1 for false and true.
pub type Answering = fn(&mut Call) -> u32;

/// Returned in place of the answer of a library that wrote beyond a row; no entry answers so.
pub const WROTE_BEYOND: u32 = u32::MAX;

impl Call {
    pub fn of(entry: Entry) -> Call {
        Call {
            entry,
            machine: Vec::new(),
            list: Vec::new(),
            operands: Vec::new(),
            results: Vec::new(),
            starts: Vec::new(),
            code: 0,
            file: Vec::new(),
            log: Vec::new(),
            answer: Vec::new(),
        }
    }

    pub fn lent(&mut self) -> Lent<'_> {
        Lent { list: &self.list, operands: &self.operands, results: &mut self.results }
    }
}
