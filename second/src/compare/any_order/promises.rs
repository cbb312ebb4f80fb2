//! What demand 3 promises of each step and of the drained machine.

use super::TakeStep;
use crate::machine::{Lent, Machine, Operand, Record, Step, REGISTERS};
use crate::numbers::Number;
use crate::one_at_a_time;
use crate::random::settings::Setting;
use crate::words::{decode, CellLimits, Operation};

/// What the one-at-a-time run comes to.
pub struct Alone {
    registers: [Number; REGISTERS],
    results: Vec<Number>,
    /// The cell and number of the store at each place.
    stores: Vec<Option<(usize, Number)>>,
}

impl Alone {
    pub fn of(setting: &Setting) -> Alone {
        let mut results = setting.results.clone();
        let mut registers = setting.starts;
        let mut stores = Vec::with_capacity(setting.list.len());
        for word in setting.list.chunks(1) {
            let instruction = decode(word[0], CellLimits::NO_AREAS).ok();
            let store = instruction.filter(|known| known.operation == Operation::Std);
            stores.push(store.map(|store| (store.operand, registers[store.r1])));
            let mut lent = Lent { list: word, operands: &setting.operands, results: &mut results };
            (registers, _) = one_at_a_time::run(&mut lent, registers);
        }
        Alone { registers, results, stores }
    }
}

/// A machine in the middle of its steps.
pub struct Promises {
    pub machine: Machine,
    pub take: TakeStep,
    pub alone: Alone,
}

impl Promises {
    pub fn some_step_permitted(&self, lent: &Lent) -> Result<(), String> {
        if self.machine.drained(lent.list.len()) {
            return Ok(());
        }
        let lowest = self.machine.lowest_step(lent);
        let Ok(Some(code)) = lowest else {
            return Err(format!("not drained, yet the lowest step is {lowest:?}"));
        };
        let (mut machine, mut results) = (self.machine, lent.results.to_vec());
        let mut copy = Lent { list: lent.list, operands: lent.operands, results: &mut results };
        (self.take)(&mut machine, &mut copy, code)
            .map_err(|refusal| format!("the lowest step {code} is refused: {}", refusal.number()))
    }

    /// A refused code changes nothing; a step taken lowers the steps left by one.
    pub fn one_code(&mut self, lent: &mut Lent, code: u32) -> Result<(), String> {
        let (before, mut results) = (self.machine, lent.results.to_vec());
        let left = before.steps_left(lent);
        let answer = (self.take)(&mut self.machine, lent, code);
        if answer.is_err() {
            let unchanged = self.machine == before && lent.results == results;
            return if unchanged { Ok(()) } else { Err("refused, yet something changed".into()) };
        }
        let left_after = self.machine.steps_left(lent);
        if left_after.map(|after| after + 1) != left {
            return Err(format!("steps left {left:?} before, {left_after:?} after"));
        }
        if let Some(Step::Release(index)) = Step::of_code(code) {
            let record = before.release_record(index).ok_or("released, but had no number")?;
            self.right_record(record)?;
            results[record.cell] = record.number;
        }
        if lent.results != results {
            return Err("the result cells are not as the step should leave them".into());
        }
        Ok(())
    }

    fn right_record(&self, record: Record) -> Result<(), String> {
        let Record { place, cell, number } = record;
        match self.alone.stores.get(place) {
            Some(&Some(store)) if store == (cell, number) => Ok(()),
            store => {
                Err(format!("released {number} to cell {cell} for place {place}, alone {store:?}"))
            }
        }
    }

    /// Says nothing of a machine that is not drained.
    pub fn drained_as_alone(&self, lent: &Lent) -> Result<(), String> {
        if !self.machine.drained(lent.list.len()) {
            return Ok(());
        }
        if self.machine.registers != self.alone.registers.map(Operand::Number) {
            let (drained, alone) = (self.machine.registers, self.alone.registers);
            return Err(format!("drained registers {drained:?}, alone {alone:?}"));
        }
        if lent.results != self.alone.results {
            return Err("drained result cells are not those of the one-at-a-time run".into());
        }
        Ok(())
    }
}
