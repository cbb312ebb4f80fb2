//! Instruction words: fields, the table of operations, the refusals of a word and the
//! list check (01, "Instructions" and "Refusal numbers").

use crate::machine::REGISTERS;
use crate::refusal::{Fault, Refusal};

pub const LIST_LIMIT: usize = 4096;
pub const CELL_LIMIT: usize = 256;
/// Registers are the even numbers below this.
pub const REGISTER_LIMIT: usize = 2 * REGISTERS;

/// R1 begins at the first of these bits, the operation at the second; the operand is below.
const R1_BIT: u32 = 12;
const OPERATION_BIT: u32 = 16;
pub const GREATEST_R1: u32 = (1 << (OPERATION_BIT - R1_BIT)) - 1;
pub const GREATEST_OPERAND: u32 = (1 << R1_BIT) - 1;

/// The three fields of a word, not yet checked.
#[derive(Clone, Copy, Debug, PartialEq, Eq)]
pub struct Fields {
    pub operation: u32,
    pub r1: u32,
    pub operand: u32,
}

impl Fields {
    pub fn of(word: u32) -> Fields {
        Fields {
            operation: word >> OPERATION_BIT,
            r1: (word >> R1_BIT) & GREATEST_R1,
            operand: word & GREATEST_OPERAND,
        }
    }

    pub fn word(self) -> u32 {
        (self.operation << OPERATION_BIT) | (self.r1 << R1_BIT) | self.operand
    }
}

#[derive(Clone, Copy, Debug, PartialEq, Eq)]
pub enum Arithmetic {
    Add,
    Subtract,
    Multiply,
    Divide,
}

impl Arithmetic {
    /// Each stands at its own number, as a machine's words and sessions give it.
    pub const ALL: [Arithmetic; 4] =
        [Arithmetic::Add, Arithmetic::Subtract, Arithmetic::Multiply, Arithmetic::Divide];
}

#[derive(Clone, Copy, Debug, PartialEq, Eq)]
pub enum Operation {
    Ld,
    Ldr,
    Ad,
    Adr,
    Sd,
    Sdr,
    Md,
    Mdr,
    Dd,
    Ddr,
    Std,
}

/// What an operation does and what its operand field means.
#[derive(Clone, Copy, Debug, PartialEq, Eq)]
pub enum Form {
    Load,
    LoadRegister,
    CellArithmetic(Arithmetic),
    RegisterArithmetic(Arithmetic),
    Store,
}

/// The table of 01; operation number n stands at index n - 1, as in `Operation`.
pub const OPERATIONS: &[(&str, Operation, Form)] = &[
    ("LD", Operation::Ld, Form::Load),
    ("LDR", Operation::Ldr, Form::LoadRegister),
    ("AD", Operation::Ad, Form::CellArithmetic(Arithmetic::Add)),
    ("ADR", Operation::Adr, Form::RegisterArithmetic(Arithmetic::Add)),
    ("SD", Operation::Sd, Form::CellArithmetic(Arithmetic::Subtract)),
    ("SDR", Operation::Sdr, Form::RegisterArithmetic(Arithmetic::Subtract)),
    ("MD", Operation::Md, Form::CellArithmetic(Arithmetic::Multiply)),
    ("MDR", Operation::Mdr, Form::RegisterArithmetic(Arithmetic::Multiply)),
    ("DD", Operation::Dd, Form::CellArithmetic(Arithmetic::Divide)),
    ("DDR", Operation::Ddr, Form::RegisterArithmetic(Arithmetic::Divide)),
    ("STD", Operation::Std, Form::Store),
];
pub const LAST_OPERATION: u32 = OPERATIONS.len() as u32;

/// Cells must be below these. Where no areas are lent only the cell limit speaks.
#[derive(Clone, Copy, Debug, PartialEq, Eq)]
pub struct CellLimits {
    pub operands: usize,
    pub results: usize,
}

impl CellLimits {
    pub const NO_AREAS: CellLimits = CellLimits { operands: CELL_LIMIT, results: CELL_LIMIT };

    pub fn of_areas(operands: usize, results: usize) -> CellLimits {
        CellLimits { operands: operands.min(CELL_LIMIT), results: results.min(CELL_LIMIT) }
    }
}

impl Operation {
    pub fn of_number(number: u32) -> Result<Operation, Refusal> {
        let index = (number as usize).wrapping_sub(1);
        let (_, operation, _) = OPERATIONS.get(index).ok_or(Refusal::BadOperation)?;
        Ok(*operation)
    }

    pub fn number(self) -> u32 {
        self as u32 + 1
    }

    pub fn form(self) -> Form {
        OPERATIONS[self as usize].2
    }

    pub fn takes_register(self) -> bool {
        matches!(self.form(), Form::LoadRegister | Form::RegisterArithmetic(_))
    }

    /// The register's index or the cell that the operand field names. It branches only on the
    /// refusal: a branch on the kind of operand is mispredicted too often in mixed lists.
    pub fn operand(self, operand: u32, limits: CellLimits) -> Result<usize, Refusal> {
        let operand = operand as usize;
        let register = self.takes_register();
        let cell_limit = if self == Operation::Std { limits.results } else { limits.operands };
        let limit = if register { REGISTER_LIMIT } else { cell_limit };
        let odd_register = register & (operand % 2 == 1);
        if odd_register | (operand >= limit) {
            return Err(if register { Refusal::BadRegister } else { Refusal::BadCell });
        }
        // Half of a register's number is its index.
        Ok(operand >> u32::from(register))
    }
}

/// Registers 0, 2, 4 and 6 stand at indices 0 to 3.
pub fn register_index(register: u32) -> Result<usize, Refusal> {
    let register = register as usize;
    if register % 2 == 1 || register >= REGISTER_LIMIT {
        return Err(Refusal::BadRegister);
    }
    Ok(register / 2)
}

pub fn register_number(index: usize) -> u32 {
    2 * index as u32
}

/// A word that passed its check: `r1` is a register's index, `operand` a register's index or a
/// cell as the operation says.
#[derive(Clone, Copy, Debug, PartialEq, Eq)]
pub struct Instruction {
    pub operation: Operation,
    pub r1: usize,
    pub operand: usize,
}

/// Inside a word 2 comes first, then R1's 3, then the operand's 3 or 4.
pub fn decode(word: u32, limits: CellLimits) -> Result<Instruction, Refusal> {
    let fields = Fields::of(word);
    let operation = Operation::of_number(fields.operation)?;
    let r1 = register_index(fields.r1)?;
    let operand = operation.operand(fields.operand, limits)?;
    Ok(Instruction { operation, r1, operand })
}

/// Refusal 1, at place 4,096, goes before any word; then the first bad word speaks with its
/// place. An accepted list has its length as place.
pub fn check_list(list: &[u32], limits: CellLimits) -> Result<(), Fault> {
    if list.len() > LIST_LIMIT {
        return Err(Refusal::ListTooLong.at(LIST_LIMIT));
    }
    for (place, &word) in list.iter().enumerate() {
        decode(word, limits).map_err(|refusal| refusal.at(place))?;
    }
    Ok(())
}
