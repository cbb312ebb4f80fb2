//! Demand 3 on a machine: steps in any order, refused ones among them, come to what the
//! one-at-a-time run comes to.

mod promises;

use super::cut::{alter, cut, row_way, Way};
use super::explain_call::numbers;
use crate::list_file;
use crate::machine::{Lent, Machine, Step, REGISTERS};
use crate::numbers::Number;
use crate::random::schedules::{self, Choice};
use crate::random::settings::Setting;
use crate::random::Prng;
use crate::refusal::Refusal;
use crate::text::assembly;
use promises::{Alone, Promises};

/// The step under test.
pub type TakeStep = fn(&mut Machine, &mut Lent, u32) -> Result<(), Refusal>;

/// Steps left are counted anew after each step, which takes time with the list's length.
const LONGEST_LIST: usize = 300;

/// Codes that may be refused are below this; the last two are always unknown.
const ANY_CODE_LIMIT: usize = Step::CODE_LIMIT + 2;

#[derive(Clone, Debug, PartialEq)]
struct Journey {
    setting: Setting,
    codes: Vec<u32>,
}

/// A random list and order of steps; what is wrong, as text, in the smallest form found.
pub fn failure(prng: &mut Prng, take: TakeStep) -> Option<String> {
    let journey = Journey::random(prng, take);
    journey.follow(take).err()?;
    let smallest = journey.shrink(|smaller| smaller.follow(take).is_err());
    let reason = smallest.follow(take).err().unwrap_or_default();
    let list = assembly::listing(&list_file::encode(&smallest.setting.list)).unwrap_or_default();
    let lines: String = list.lines().map(|line| format!("    {line}\n")).collect();
    Some(format!(
        "demand 3 fails: {reason}\nsmallest case found:\n  list, {} words\n{lines}{}{}  result cells {}\n  codes {:?}\n",
        smallest.setting.list.len(),
        numbers("operands", &smallest.setting.operands),
        numbers("starts", &smallest.setting.starts),
        smallest.setting.results.len(),
        smallest.codes,
    ))
}

const WAYS: [Way<Journey>; 4] = [
    row_way!(codes),
    row_way!(setting.list),
    row_way!(setting.operands),
    row_way!(setting.results),
];

impl Journey {
    /// Permitted steps to the drained machine, and a code that may be refused before every fourth.
    fn random(prng: &mut Prng, take: TakeStep) -> Journey {
        let setting = Setting::random(prng, LONGEST_LIST);
        let choice = Choice::random(prng);
        let mut results = setting.results.clone();
        let mut lent = setting.lent(&mut results);
        let (mut machine, _) = Machine::fresh(&lent, setting.starts);
        let mut codes = Vec::new();
        for _ in 0..machine.steps_left(&lent).unwrap_or(0) {
            if prng.percent(25) {
                let blocked = schedules::blocked_step(prng, &machine, &lent);
                let any = prng.below(ANY_CODE_LIMIT) as u32;
                codes.push(blocked.filter(|_| prng.percent(50)).map_or(any, Step::code));
                let _ = take(&mut machine, &mut lent, codes[codes.len() - 1]);
            }
            let Some(step) = choice.step(prng, &machine, &lent) else {
                break;
            };
            codes.push(step.code());
            let _ = take(&mut machine, &mut lent, step.code());
        }
        Journey { setting, codes }
    }

    /// What 01 promises, before and after each step and at the end. A list that does not pass
    /// promises nothing.
    fn follow(&self, take: TakeStep) -> Result<(), String> {
        let mut results = self.setting.results.clone();
        let mut lent = self.setting.lent(&mut results);
        let (machine, answer) = Machine::fresh(&lent, self.setting.starts);
        if answer.is_err() {
            return Ok(());
        }
        let mut promises = Promises { machine, take, alone: Alone::of(&self.setting) };
        for (index, &code) in self.codes.iter().enumerate() {
            let at_code = |reason| format!("code {code}, number {}: {reason}", index + 1);
            promises.some_step_permitted(&lent).map_err(at_code)?;
            promises.one_code(&mut lent, code).map_err(at_code)?;
        }
        promises.some_step_permitted(&lent)?;
        promises.drained_as_alone(&lent)
    }

    fn shrink(&self, mut fails: impl FnMut(&Journey) -> bool) -> Journey {
        let mut best = self.clone();
        loop {
            let before = best.clone();
            for way in &WAYS {
                cut(&mut best, way, &mut fails);
            }
            for index in 0..REGISTERS {
                alter(&mut best, &mut fails, |simpler| {
                    simpler.setting.starts[index] = Number::ZERO
                });
            }
            if best == before {
                return best;
            }
        }
    }
}
