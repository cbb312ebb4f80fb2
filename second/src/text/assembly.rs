//! Instruction lists as text: `LD F0,0`, `ADR F0,F2`, `STD F4,17`.

use super::{decimal, read_lines, LineError};
use crate::list_file;
use crate::refusal::Fault;
use crate::words::{register_index, Fields, Operation, CELL_LIMIT, LIST_LIMIT, OPERATIONS};

/// The list file of a text.
pub fn assemble(text: &str) -> Result<Vec<u8>, LineError> {
    let list = read_lines(text, (LIST_LIMIT, "instructions"), instruction)?;
    Ok(list_file::encode(&list))
}

fn instruction(phrase: &str) -> Result<u32, String> {
    let (name, operands) = phrase.split_once(char::is_whitespace).unwrap_or((phrase, ""));
    let (name, operation, _) = OPERATIONS
        .iter()
        .find(|(known, ..)| name.eq_ignore_ascii_case(known))
        .ok_or_else(|| format!("unknown operation `{name}`"))?;
    let example = if operation.takes_register() { "F0,F2" } else { "F0,0" };
    let (r1, operand) = operands
        .split_once(',')
        .ok_or_else(|| format!("{name} needs two operands, as in `{name} {example}`"))?;
    let r1 = register(r1.trim())?;
    let operand = operand_field(*operation, operand.trim())?;
    Ok(Fields { operation: operation.number(), r1, operand }.word())
}

fn operand_field(operation: Operation, text: &str) -> Result<u32, String> {
    if operation.takes_register() {
        return register(text);
    }
    decimal(text)
        .filter(|&cell| (cell as usize) < CELL_LIMIT)
        .ok_or_else(|| format!("`{text}` is not a cell from 0 to {}", CELL_LIMIT - 1))
}

fn register(text: &str) -> Result<u32, String> {
    text.strip_prefix(['F', 'f'])
        .and_then(decimal)
        .filter(|&register| register_index(register).is_ok())
        .ok_or_else(|| format!("`{text}` is not a register: F0, F2, F4 or F6"))
}

/// The text of a list file, one instruction a line.
pub fn listing(file: &[u8]) -> Result<String, Fault> {
    Ok(list_file::read_words(file)?.into_iter().map(line).collect())
}

/// The line of a word that the reader accepted.
fn line(word: u32) -> String {
    let Fields { operation, r1, operand } = Fields::of(word);
    let (name, operation, _) = OPERATIONS[operation as usize - 1];
    let prefix = if operation.takes_register() { "F" } else { "" };
    format!("{name} F{r1},{prefix}{operand}\n")
}
