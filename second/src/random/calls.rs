//! Random calls of the entries, on machines reached by permitted steps and on damaged ones.

use super::schedules::{self, Choice};
use super::settings::{number, Setting};
use super::{bytes, strain, Prng};
use crate::entries::machine_words::words_of;
use crate::entries::{Call, Entry, RECORD_WORDS};
use crate::list_file;
use crate::machine::{Machine, Step, REGISTERS};
use crate::words::LIST_LIMIT;

/// Schedules have fewer steps.
const SCHEDULE_LIMIT: usize = 150;

/// How often each entry is called, in all a hundred.
const SHARES: &[(Entry, usize)] = &[
    (Entry::Step, 44),
    (Entry::Run, 12),
    (Entry::GoodOrder, 12),
    (Entry::StepsLeft, 6),
    (Entry::LowestStep, 8),
    (Entry::Drained, 4),
    (Entry::Fresh, 3),
    (Entry::OneAtATime, 3),
    (Entry::ReadList, 4),
    (Entry::WriteList, 4),
];

/// Lengths of the row of start numbers, most of them right.
const STARTS_LENGTHS: [usize; 10] = {
    let right = REGISTERS;
    [right, right, right, right, right, right, right, right - 1, 0, right + 1]
};

/// A machine on its way through a setting, and the calls made of it.
pub struct Calls {
    setting: Setting,
    /// Steps between two calls, so that they spread over the whole way.
    stride: usize,
    machine: Machine,
    choice: Choice,
}

impl Calls {
    /// Calls of one random setting, of which so many will be asked for.
    pub fn new(prng: &mut Prng, count: usize) -> Calls {
        let setting = Setting::random(prng, LIST_LIMIT);
        let machine = fresh(&setting);
        let left = machine.steps_left(&setting.lent(&mut setting.results.clone())).unwrap_or(0);
        Calls { stride: 1 + left / count, setting, machine, choice: Choice::random(prng) }
    }

    pub fn next(&mut self, prng: &mut Prng) -> Call {
        self.walk(prng);
        let entry = entry(prng);
        let mut call = self.plain(prng, entry);
        if prng.percent(65) {
            strain::strain(prng, &mut call);
        }
        call
    }

    /// A few permitted steps; a drained machine begins again, in another manner.
    fn walk(&mut self, prng: &mut Prng) {
        let mut results = self.setting.results.clone();
        let mut lent = self.setting.lent(&mut results);
        for _ in 0..prng.below(2 * self.stride + 1) {
            let Some(step) = self.choice.step(prng, &self.machine, &lent) else {
                self.machine = fresh(&self.setting);
                self.choice = Choice::random(prng);
                return;
            };
            // The step is permitted.
            let _ = self.machine.take(&mut lent, step);
        }
    }

    /// A call with rows as long as they should be; what is to be overwritten holds anything.
    fn plain(&self, prng: &mut Prng, entry: Entry) -> Call {
        let mut call = Call::of(entry);
        call.list = self.setting.list.clone();
        let answer_words = entry.answer_words().max(Entry::Run.answer_words());
        call.answer = vec![prng.number(); answer_words];
        match entry {
            Entry::ReadList => read_list(prng, &mut call),
            Entry::WriteList => write_list(prng, &mut call),
            _ => self.with_machine(prng, &mut call),
        }
        call
    }

    fn with_machine(&self, prng: &mut Prng, call: &mut Call) {
        call.machine = words_of(&self.machine).to_vec();
        call.operands = self.setting.operands.clone();
        call.results = self.setting.results.clone();
        match call.entry {
            Entry::Step => call.code = self.code(prng),
            Entry::Run => self.schedule_and_log(prng, call),
            Entry::Fresh | Entry::OneAtATime => {
                let length = prng.pick(&STARTS_LENGTHS);
                call.starts = (0..length).map(|_| number(prng)).collect();
            }
            _ => {}
        }
    }

    fn code(&self, prng: &mut Prng) -> u32 {
        let mut results = self.setting.results.clone();
        let lent = self.setting.lent(&mut results);
        let code_of = |step: Option<Step>| step.unwrap_or(Step::Issue).code();
        let permitted = code_of(self.choice.step(prng, &self.machine, &lent));
        let blocked = code_of(schedules::blocked_step(prng, &self.machine, &lent));
        match prng.below(10) {
            0..=3 => permitted,
            4..=5 => blocked,
            6 => prng.below(Step::CODE_LIMIT) as u32,
            7 => prng.pick(&schedules::stray_codes()).into(),
            8 => permitted.wrapping_add(prng.pick(&[1 << 7, 1 << 8, 1 << 16, 1 << 31])),
            _ => {
                let any = prng.number() as u32;
                let issue = Step::Issue.code();
                prng.pick(&[issue, issue, u32::MAX, any])
            }
        }
    }

    fn schedule_and_log(&self, prng: &mut Prng, call: &mut Call) {
        call.file = schedules::file(&self.codes_from_here(prng));
        if prng.percent(20) {
            bytes::damage(prng, &mut call.file);
        }
        let cut = prng.pick(&[0, 0, 0, 1, 2]);
        let room = prng.pick(&[0, 1, 2, 3, 5, 40]);
        call.log = vec![prng.number(); room * RECORD_WORDS + cut];
    }

    /// Permitted steps from this machine on, some with a stray code among them.
    fn codes_from_here(&self, prng: &mut Prng) -> Vec<u16> {
        let (mut machine, mut results) = (self.machine, self.setting.results.clone());
        let mut lent = self.setting.lent(&mut results);
        let mut codes = Vec::new();
        for _ in 0..prng.below(SCHEDULE_LIMIT) {
            let step = self.choice.step(prng, &machine, &lent);
            let Some(step) = step.filter(|&step| machine.take(&mut lent, step).is_ok()) else {
                break;
            };
            codes.push(step.code() as u16);
        }
        if prng.percent(30) {
            schedules::damage(prng, &mut codes);
        }
        codes
    }
}

fn fresh(setting: &Setting) -> Machine {
    Machine::fresh(&setting.lent(&mut setting.results.clone()), setting.starts).0
}

fn entry(prng: &mut Prng) -> Entry {
    let mut drawn = prng.below(100);
    for &(entry, share) in SHARES {
        if drawn < share {
            return entry;
        }
        drawn -= share;
    }
    Entry::Step
}

/// A length around what is needed: empty, one too short, exact, longer.
fn room(prng: &mut Prng, needed: usize) -> usize {
    prng.pick(&[needed, needed, needed, needed + 1, needed + 9, needed.saturating_sub(1), 0])
}

fn read_list(prng: &mut Prng, call: &mut Call) {
    if prng.percent(15) {
        strain::damage_list(prng, &mut call.list);
    }
    call.file = list_file::encode(&call.list);
    if prng.percent(25) {
        bytes::damage(prng, &mut call.file);
    }
    call.list = vec![prng.number() as u32; room(prng, call.list.len())];
}

fn write_list(prng: &mut Prng, call: &mut Call) {
    if prng.percent(20) {
        strain::damage_list(prng, &mut call.list);
    }
    let length = list_file::encode(&call.list).len();
    call.file = vec![prng.number() as u8; room(prng, length)];
}
