//! Drained, steps left and the lowest permitted step (01, "Steps" and "Refusal numbers").

use super::{Buffer, Lent, Machine, Operand, Station, Step, StoreBuffer};
use crate::refusal::Refusal;
use crate::words::{decode, CellLimits, Form, Instruction};

/// Steps that one unissued instruction still needs.
fn steps_of(form: Form) -> usize {
    match form {
        Form::Load => 3,
        Form::LoadRegister => 1,
        Form::CellArithmetic(_) => 5,
        Form::RegisterArithmetic(_) => 3,
        Form::Store => 2,
    }
}

impl Machine {
    pub fn drained(&self, list_length: usize) -> bool {
        self.next == list_length && self.steps_in_flight() == 0
    }

    /// Steps that what the machine holds still needs; 0 exactly when all of it is free.
    fn steps_in_flight(&self) -> usize {
        let buffer_steps = |buffer: &Buffer| match buffer {
            Buffer::Free => 0,
            Buffer::Waiting { .. } => 2,
            Buffer::Full { .. } => 1,
        };
        let station_steps = |station: &Station| match station {
            Station::Free => 0,
            Station::Holding { .. } => 2,
            Station::Done { .. } => 1,
        };
        let store_steps = |store: &StoreBuffer| match store {
            StoreBuffer::Free => 0,
            StoreBuffer::Live { .. } => 1,
        };
        self.buffers.iter().map(buffer_steps).sum::<usize>()
            + self.stations.iter().map(station_steps).sum::<usize>()
            + self.stores.iter().map(store_steps).sum::<usize>()
    }

    /// A caller that wants a number shows 0 for a refusal.
    pub fn steps_left(&self, lent: &Lent) -> Result<usize, Refusal> {
        self.check_with(lent)?;
        let mut left = self.steps_in_flight();
        for &word in &lent.list[self.next..] {
            left += steps_of(decode(word, lent.limits())?.operation.form());
        }
        Ok(left)
    }

    /// The smallest permitted code, or none exactly when drained.
    pub fn lowest_step(&self, lent: &Lent) -> Result<Option<u32>, Refusal> {
        self.check_with(lent)?;
        let mut known = Step::known();
        let lowest = known.find(|&(_, step)| self.permits(lent.list, lent.limits(), step));
        Ok(lowest.map(|(code, _)| code))
    }

    /// The whole list against its areas, then good order.
    pub fn check_with(&self, lent: &Lent) -> Result<(), Refusal> {
        lent.check()?;
        if self.in_good_order(lent.list.len(), lent.limits()) {
            Ok(())
        } else {
            Err(Refusal::NotInGoodOrder)
        }
    }

    /// Whether a machine in good order permits the step; a bad word is never issued.
    pub fn permits(&self, list: &[u32], limits: CellLimits, step: Step) -> bool {
        match step {
            Step::Issue => list
                .get(self.next)
                .and_then(|&word| decode(word, limits).ok())
                .is_some_and(|instruction| self.has_room_for(instruction)),
            Step::Arrival(index) => matches!(self.buffers[index], Buffer::Waiting { .. }),
            Step::Completion(index) => matches!(
                self.stations[index],
                Station::Holding { sink: Operand::Number(_), source: Operand::Number(_), .. }
            ),
            Step::Grant(giver) => self.given(giver).is_some(),
            Step::Release(index) => self.release_record(index).is_some(),
        }
    }

    /// The place of the instruction that a step works for; none when what it names is free.
    pub fn place_served(&self, step: Step) -> Option<usize> {
        match step {
            Step::Issue => Some(self.next),
            Step::Arrival(index) => self.buffers[index].place(),
            Step::Completion(index) => self.stations[index].place(),
            Step::Grant(giver) => self.giver_place(giver),
            Step::Release(index) => self.stores[index].place(),
        }
    }

    fn has_room_for(&self, instruction: Instruction) -> bool {
        match instruction.operation.form() {
            Form::Load => self.free_buffer().is_ok(),
            Form::LoadRegister => true,
            Form::CellArithmetic(operation) => {
                self.free_buffer().is_ok() && self.free_station(operation).is_ok()
            }
            Form::RegisterArithmetic(operation) => self.free_station(operation).is_ok(),
            Form::Store => self.store_buffer_for(instruction.operand).is_ok(),
        }
    }
}
