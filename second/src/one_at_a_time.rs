//! The one-at-a-time run: each instruction is done before the next begins.

use crate::machine::{Lent, REGISTERS};
use crate::numbers::Number;
use crate::refusal::Refusal;
use crate::words::Arithmetic::{Add, Divide, Multiply, Subtract};
use crate::words::{decode, Instruction, Operation};

/// The registers after the list, with the result cells written. Refused, it gives the start
/// numbers back and writes nothing.
pub fn run(
    lent: &mut Lent,
    start: [Number; REGISTERS],
) -> ([Number; REGISTERS], Result<(), Refusal>) {
    let mut registers = start;
    let answer = lent.check().and_then(|()| run_checked(lent, &mut registers));
    (registers, answer)
}

fn run_checked(lent: &mut Lent, registers: &mut [Number; REGISTERS]) -> Result<(), Refusal> {
    let limits = lent.limits();
    let cells = lent.operands;
    for &word in lent.list {
        let Instruction { operation, r1, operand } = decode(word, limits)?;
        let sink = registers[r1];
        registers[r1] = match operation {
            Operation::Ld => cells[operand],
            Operation::Ldr => registers[operand],
            Operation::Ad => Add.apply(sink, cells[operand]),
            Operation::Adr => Add.apply(sink, registers[operand]),
            Operation::Sd => Subtract.apply(sink, cells[operand]),
            Operation::Sdr => Subtract.apply(sink, registers[operand]),
            Operation::Md => Multiply.apply(sink, cells[operand]),
            Operation::Mdr => Multiply.apply(sink, registers[operand]),
            Operation::Dd => Divide.apply(sink, cells[operand]),
            Operation::Ddr => Divide.apply(sink, registers[operand]),
            Operation::Std => {
                lent.results[operand] = sink;
                sink
            }
        };
    }
    Ok(())
}
