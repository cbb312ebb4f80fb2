//! Good order (01, "Tags and what the machine holds").

use super::{Buffer, Giver, Machine, Operand, Station, StoreBuffer, Tag, STORE_BUFFERS};
use crate::words::{Arithmetic, CellLimits};

impl Machine {
    pub fn in_good_order(&self, list_length: usize, limits: CellLimits) -> bool {
        self.next <= list_length
            && self.registers.iter().all(|&register| self.register_in_order(register))
            && self.buffers.iter().all(|buffer| self.buffer_in_order(buffer, limits))
            && (0..self.stations.len()).all(|index| self.station_in_order(index))
            && self.stores.iter().all(|store| self.store_in_order(store, limits))
            && self.live_store_cells_differ()
    }

    fn buffer_in_order(&self, buffer: &Buffer, limits: CellLimits) -> bool {
        match *buffer {
            Buffer::Free => true,
            Buffer::Waiting { place, cell } => place < self.next && cell < limits.operands,
            Buffer::Full { place, .. } => place < self.next,
        }
    }

    fn station_in_order(&self, index: usize) -> bool {
        match self.stations[index] {
            Station::Free => true,
            Station::Done { place, .. } => place < self.next,
            Station::Holding { place, operation, sink, source } => {
                let adds = matches!(operation, Arithmetic::Add | Arithmetic::Subtract);
                place < self.next
                    && adds == (index >= Tag::FIRST_ADDER_INDEX)
                    && self.operand_in_order(sink, place)
                    && self.operand_in_order(source, place)
            }
        }
    }

    fn store_in_order(&self, store: &StoreBuffer, limits: CellLimits) -> bool {
        match *store {
            StoreBuffer::Free => true,
            StoreBuffer::Live { place, cell, operand } => {
                place < self.next && cell < limits.results && self.operand_in_order(operand, place)
            }
        }
    }

    /// The place of a buffer or station; none when it is free.
    pub(super) fn giver_place(&self, giver: Giver) -> Option<usize> {
        match giver {
            Giver::Buffer(index) => self.buffers[index].place(),
            Giver::Station(index) => self.stations[index].place(),
        }
    }

    /// A register's tag need only name something that is not free.
    fn register_in_order(&self, register: Operand) -> bool {
        match register {
            Operand::Number(_) => true,
            Operand::Waits(tag) => tag.giver().and_then(|giver| self.giver_place(giver)).is_some(),
        }
    }

    /// A tag held at place `holder` names a buffer of place at most that or a station of place
    /// below it.
    fn operand_in_order(&self, operand: Operand, holder: usize) -> bool {
        let Operand::Waits(tag) = operand else {
            return true;
        };
        let Some(giver) = tag.giver() else {
            return false;
        };
        match (giver, self.giver_place(giver)) {
            (_, None) => false,
            (Giver::Buffer(_), Some(place)) => place <= holder,
            (Giver::Station(_), Some(place)) => place < holder,
        }
    }

    fn live_store_cells_differ(&self) -> bool {
        let cells = self.stores.map(|store| match store {
            StoreBuffer::Free => None,
            StoreBuffer::Live { cell, .. } => Some(cell),
        });
        let differ = |one: Option<usize>, other: Option<usize>| one.is_none() || one != other;
        (1..STORE_BUFFERS).all(|one| (0..one).all(|other| differ(cells[one], cells[other])))
    }
}
