//! The steps, taken in place (01, "Steps" and "Refusal numbers").

use super::{Buffer, Giver, Lent, Machine, Operand, Record, Station, Step, StoreBuffer, Tag};
use crate::numbers::Number;
use crate::refusal::Refusal;
use crate::words::{decode, Arithmetic, Form, Instruction, LIST_LIMIT};

impl Buffer {
    fn given(&self) -> Option<Number> {
        match *self {
            Buffer::Full { number, .. } => Some(number),
            _ => None,
        }
    }
}

impl Station {
    fn given(&self) -> Option<Number> {
        match *self {
            Station::Done { result, .. } => Some(result),
            _ => None,
        }
    }
}

impl Operand {
    fn take_grant(&mut self, granted: Tag, number: Number) {
        if *self == Operand::Waits(granted) {
            *self = Operand::Number(number);
        }
    }
}

impl Machine {
    /// One step on any machine: 1, 6 and 5 go first, then what the step itself refuses. A
    /// refused step leaves the machine and the result cells as they were.
    pub fn step(&mut self, lent: &mut Lent, code: u32) -> Result<(), Refusal> {
        if lent.list.len() > LIST_LIMIT {
            return Err(Refusal::ListTooLong);
        }
        if !self.in_good_order(lent.list.len(), lent.limits()) {
            return Err(Refusal::NotInGoodOrder);
        }
        let step = Step::of_code(code).ok_or(Refusal::UnknownStep)?;
        self.take(lent, step)
    }

    /// One known step on a machine in good order.
    pub fn take(&mut self, lent: &mut Lent, step: Step) -> Result<(), Refusal> {
        match step {
            Step::Issue => self.issue(lent),
            Step::Arrival(index) => self.arrive(index, lent.operands),
            Step::Completion(index) => self.complete(index),
            Step::Grant(giver) => self.grant(giver),
            Step::Release(index) => self.release(index, lent.results),
        }
    }

    fn issue(&mut self, lent: &Lent) -> Result<(), Refusal> {
        let &word = lent.list.get(self.next).ok_or(Refusal::NotPermitted)?;
        let Instruction { operation, r1, operand } = decode(word, lent.limits())?;
        match operation.form() {
            Form::Load => {
                let buffer = self.free_buffer()?;
                let tag = self.await_cell(buffer, operand);
                self.registers[r1] = Operand::Waits(tag);
            }
            Form::LoadRegister => self.registers[r1] = self.registers[operand],
            Form::CellArithmetic(operation) => {
                let (buffer, station) = (self.free_buffer()?, self.free_station(operation)?);
                let tag = self.await_cell(buffer, operand);
                self.hold(station, operation, r1, Operand::Waits(tag));
            }
            Form::RegisterArithmetic(operation) => {
                let station = self.free_station(operation)?;
                self.hold(station, operation, r1, self.registers[operand]);
            }
            Form::Store => {
                let store = self.store_buffer_for(operand)?;
                self.stores[store] = StoreBuffer::Live {
                    place: self.next,
                    cell: operand,
                    operand: self.registers[r1],
                };
            }
        }
        self.next += 1;
        Ok(())
    }

    pub(super) fn free_buffer(&self) -> Result<usize, Refusal> {
        let free = |buffer: &Buffer| matches!(buffer, Buffer::Free);
        self.buffers.iter().position(free).ok_or(Refusal::NotPermitted)
    }

    pub(super) fn free_station(&self, operation: Arithmetic) -> Result<usize, Refusal> {
        let (first, end) = match operation {
            Arithmetic::Add | Arithmetic::Subtract => (Tag::FIRST_ADDER_INDEX, super::STATIONS),
            Arithmetic::Multiply | Arithmetic::Divide => (0, Tag::FIRST_ADDER_INDEX),
        };
        (first..end)
            .find(|&index| matches!(self.stations[index], Station::Free))
            .ok_or(Refusal::NotPermitted)
    }

    /// A free store buffer, if no live one has the same cell.
    pub(super) fn store_buffer_for(&self, wanted: usize) -> Result<usize, Refusal> {
        let holds_cell = |store: &StoreBuffer| match store {
            StoreBuffer::Free => false,
            StoreBuffer::Live { cell, .. } => *cell == wanted,
        };
        if self.stores.iter().any(holds_cell) {
            return Err(Refusal::NotPermitted);
        }
        let free = |store: &StoreBuffer| matches!(store, StoreBuffer::Free);
        self.stores.iter().position(free).ok_or(Refusal::NotPermitted)
    }

    fn await_cell(&mut self, buffer: usize, cell: usize) -> Tag {
        self.buffers[buffer] = Buffer::Waiting { place: self.next, cell };
        Tag::of_buffer(buffer)
    }

    /// The sink is R1 as it stands; only then R1 takes the station's tag.
    fn hold(&mut self, station: usize, operation: Arithmetic, r1: usize, source: Operand) {
        self.stations[station] =
            Station::Holding { place: self.next, operation, sink: self.registers[r1], source };
        self.registers[r1] = Operand::Waits(Tag::of_station(station));
    }

    fn arrive(&mut self, index: usize, operands: &[Number]) -> Result<(), Refusal> {
        let Buffer::Waiting { place, cell } = self.buffers[index] else {
            return Err(Refusal::NotPermitted);
        };
        let number = operands[cell];
        self.buffers[index] = Buffer::Full { place, number };
        Ok(())
    }

    fn complete(&mut self, index: usize) -> Result<(), Refusal> {
        let Station::Holding {
            place,
            operation,
            sink: Operand::Number(sink),
            source: Operand::Number(source),
        } = self.stations[index]
        else {
            return Err(Refusal::NotPermitted);
        };
        let result = operation.apply(sink, source);
        self.stations[index] = Station::Done { place, result };
        Ok(())
    }

    /// The number that a full buffer or a done station has to give.
    pub(super) fn given(&self, giver: Giver) -> Option<Number> {
        match giver {
            Giver::Buffer(index) => self.buffers[index].given(),
            Giver::Station(index) => self.stations[index].given(),
        }
    }

    fn grant(&mut self, giver: Giver) -> Result<(), Refusal> {
        let number = self.given(giver).ok_or(Refusal::NotPermitted)?;
        let tag = match giver {
            Giver::Buffer(index) => {
                self.buffers[index] = Buffer::Free;
                Tag::of_buffer(index)
            }
            Giver::Station(index) => {
                self.stations[index] = Station::Free;
                Tag::of_station(index)
            }
        };
        for register in &mut self.registers {
            register.take_grant(tag, number);
        }
        for station in &mut self.stations {
            if let Station::Holding { sink, source, .. } = station {
                sink.take_grant(tag, number);
                source.take_grant(tag, number);
            }
        }
        for store in &mut self.stores {
            if let StoreBuffer::Live { operand, .. } = store {
                operand.take_grant(tag, number);
            }
        }
        Ok(())
    }

    /// The record that a permitted release of this store buffer makes.
    pub fn release_record(&self, index: usize) -> Option<Record> {
        match self.stores[index] {
            StoreBuffer::Live { place, cell, operand: Operand::Number(number) } => {
                Some(Record { place, cell, number })
            }
            _ => None,
        }
    }

    fn release(&mut self, index: usize, results: &mut [Number]) -> Result<(), Refusal> {
        let record = self.release_record(index).ok_or(Refusal::NotPermitted)?;
        results[record.cell] = record.number;
        self.stores[index] = StoreBuffer::Free;
        Ok(())
    }
}
