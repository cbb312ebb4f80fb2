//! Random lists, as words.

use super::Prng;
use crate::machine::REGISTERS;
use crate::words::Operation::{Ad, Adr, Ddr, Ld, Ldr, Md, Mdr, Sdr, Std};
use crate::words::{
    register_number, CellLimits, Fields, Form, Operation, CELL_LIMIT, GREATEST_OPERAND,
    GREATEST_R1, LAST_OPERATION, LIST_LIMIT, OPERATIONS, REGISTER_LIMIT,
};

/// Operations to choose from: where none is named all, else mixes that crowd one kind of place
/// in the machine.
const MIXES: [&[Operation]; 8] = [
    &[],
    &[],
    &[Ldr, Adr, Sdr, Mdr, Ddr, Std],
    &[Ld, Ad, Md, Std],
    &[Adr, Sdr, Ldr],
    &[Mdr, Ddr, Std],
    &[Ld, Ld, Ld, Ldr, Std],
    &[Std, Std, Std, Adr],
];

pub fn length(prng: &mut Prng) -> usize {
    match prng.below(100) {
        0 => LIST_LIMIT - prng.below(2),
        1..=9 => prng.below(400),
        10..=39 => prng.below(8),
        _ => prng.below(40),
    }
}

/// A list that passes against areas of these lengths.
pub fn good(prng: &mut Prng, length: usize, areas: CellLimits) -> Vec<u32> {
    let mix = usable(prng.pick(&MIXES), areas);
    // Few cells make stores meet; the last ones are the edge of their area.
    let result_cells = prng.pick(&[1, 2, 3, 4, CELL_LIMIT]).min(areas.results);
    (0..length)
        .map(|_| {
            let operation = prng.pick(&mix);
            let operand = match operation.form() {
                Form::LoadRegister | Form::RegisterArithmetic(_) => register(prng),
                Form::Store => (areas.results - 1 - prng.below(result_cells)) as u32,
                Form::Load | Form::CellArithmetic(_) => prng.below(areas.operands) as u32,
            };
            let r1 = register(prng);
            Fields { operation: operation.number(), r1, operand }.word()
        })
        .collect()
}

/// Without the operations whose area is empty; LDR needs none.
fn usable(mix: &[Operation], areas: CellLimits) -> Vec<Operation> {
    let has_cells = |operation: &Operation| match operation.form() {
        Form::Load | Form::CellArithmetic(_) => areas.operands > 0,
        Form::Store => areas.results > 0,
        Form::LoadRegister | Form::RegisterArithmetic(_) => true,
    };
    let all: Vec<Operation> = OPERATIONS.iter().map(|&(_, operation, _)| operation).collect();
    let mix = if mix.is_empty() { &all[..] } else { mix };
    let usable: Vec<Operation> = mix.iter().copied().filter(has_cells).collect();
    if usable.is_empty() {
        return vec![Ldr];
    }
    usable
}

fn register(prng: &mut Prng) -> u32 {
    register_number(prng.below(REGISTERS))
}

const HIGH: u32 = REGISTER_LIMIT as u32;
const CELLS: u32 = CELL_LIMIT as u32;

/// Operations outside their table, registers that are odd or too high, and operands that are so
/// or at the edge of the cells.
const BAD_OPERATIONS: [u32; 8] =
    [0, LAST_OPERATION + 1, LAST_OPERATION + 2, 127, 128, 255, 256, 65_535];
const BAD_R1: [u32; 7] = [1, 3, 5, HIGH - 1, HIGH, HIGH + 2, GREATEST_R1];
const ODD_OPERANDS: [u32; 10] =
    [1, 3, HIGH - 1, HIGH, 127, 128, CELLS - 1, CELLS, CELLS + 1, GREATEST_OPERAND];

/// Makes one or two words bad, or at least strange.
pub fn damage(prng: &mut Prng, list: &mut [u32]) {
    if list.is_empty() {
        return;
    }
    for _ in 0..=prng.below(2) {
        let place = prng.below(list.len());
        let mut fields = Fields::of(list[place]);
        match prng.below(4) {
            0 => fields.operation = prng.pick(&BAD_OPERATIONS),
            1 => fields.r1 = prng.pick(&BAD_R1),
            2 => fields.operand = prng.pick(&ODD_OPERANDS),
            _ => fields = Fields::of(prng.number() as u32),
        }
        list[place] = fields.word();
    }
}
