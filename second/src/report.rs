//! What the report program prints (01, "The report program").

use crate::list_file;
use crate::machine::{Lent, Machine, Operand, Record, REGISTERS};
use crate::numbers::Number;
use crate::refusal::{Fault, Refusal};
use crate::schedule::{self, RunAnswer};
use crate::words::{check_list, register_number, CELL_LIMIT};
use std::fmt::Write;
use std::fs::File;
use std::io::Read;

pub const FILE_LIMIT: usize = 65_536;
pub const LOG_RECORDS: usize = 2_048;
pub const PATTERN_BYTES: usize = 8;
const OPERANDS_LIMIT: usize = CELL_LIMIT * PATTERN_BYTES;

/// The whole text for the files of these names; names after the third are ignored.
pub fn report_names(names: &[String]) -> String {
    let [list, operands, schedule] = [0, 1, 2].map(|index| names.get(index).and_then(read_file));
    report(list.as_deref(), operands.as_deref(), schedule.as_deref())
}

/// None when the file cannot be opened or read. One byte above the limit is enough to refuse it.
fn read_file(name: &String) -> Option<Vec<u8>> {
    let mut bytes = Vec::new();
    let file = File::open(name).ok()?;
    file.take(FILE_LIMIT as u64 + 1).read_to_end(&mut bytes).ok()?;
    Some(bytes)
}

/// The whole text for three files; none stands for one that is not named or not opened.
pub fn report(list: Option<&[u8]>, operands: Option<&[u8]>, schedule: Option<&[u8]>) -> String {
    session_text(list, operands, schedule).unwrap_or_else(|stopped| format!("stopped {stopped}\n"))
}

/// Err is the rest of a `stopped` line; `?` shows the first file at fault in the order of 01.
fn session_text(
    list: Option<&[u8]>,
    operands: Option<&[u8]>,
    schedule: Option<&[u8]>,
) -> Result<String, String> {
    let list = within_limit(list).and_then(|bytes| list_file::read_words(bytes).map_err(number_at));
    let list = list.map_err(|stop| format!("list {stop}"))?;
    let operands = within_limit(operands).and_then(|bytes| read_operands(bytes).map_err(number_at));
    let operands = operands.map_err(|stop| format!("operands {stop}"))?;
    let schedule = within_limit(schedule).map_err(|stop| format!("schedule {stop}"))?;
    let mut lent =
        Lent { list: &list, operands: &operands, results: &mut [Number::ZERO; CELL_LIMIT] };
    check_list(&list, lent.limits()).map_err(|fault| format!("areas {}", number_at(fault)))?;
    Ok(run_text(&mut lent, schedule))
}

fn number_at(fault: Fault) -> String {
    format!("{} at {}", fault.refusal.number(), fault.place)
}

fn within_limit(file: Option<&[u8]>) -> Result<&[u8], String> {
    let bytes = file.ok_or("missing")?;
    if bytes.len() > FILE_LIMIT {
        return Err(number_at(Refusal::TooSmall.at(FILE_LIMIT)));
    }
    Ok(bytes)
}

/// Big-endian patterns, at most one a cell.
pub fn read_operands(bytes: &[u8]) -> Result<Vec<Number>, Fault> {
    if bytes.len() > OPERANDS_LIMIT {
        return Err(Refusal::BadCell.at(OPERANDS_LIMIT));
    }
    let patterns = bytes.chunks_exact(PATTERN_BYTES);
    let cut = patterns.remainder().len();
    if cut > 0 {
        return Err(Refusal::FileEnds.at(bytes.len() - cut));
    }
    let join = |pattern: u64, &byte: &u8| pattern << u8::BITS | u64::from(byte);
    Ok(patterns.map(|bytes| Number::from_pattern(bytes.iter().fold(0, join))).collect())
}

fn run_text(lent: &mut Lent, schedule: &[u8]) -> String {
    let unwritten = Record { place: 0, cell: 0, number: Number::ZERO };
    let mut log = vec![unwritten; LOG_RECORDS];
    let (mut machine, _) = Machine::fresh(lent, [Number::ZERO; REGISTERS]);
    let answer = schedule::run(&mut machine, lent, schedule, &mut log);
    let left = machine.steps_left(lent).unwrap_or(0);
    lines(&answer, left, &machine.registers, &log[..answer.records])
}

fn lines(answer: &RunAnswer, left: usize, registers: &[Operand], records: &[Record]) -> String {
    let refusal = Refusal::number_of(&answer.refusal);
    let mut text =
        format!("steps {}\nrefusal {refusal} at {}\nleft {left}\n", answer.steps, answer.place);
    // Writing to a String cannot fail.
    for (index, register) in registers.iter().enumerate() {
        let name = register_number(index);
        let _ = match register {
            Operand::Number(number) => writeln!(text, "F{name} {number}"),
            Operand::Waits(tag) => writeln!(text, "F{name} tag {}", tag.0),
        };
    }
    let _ = writeln!(text, "log {}", records.len());
    for record in records {
        let _ = writeln!(text, "{} {} {}", record.place, record.cell, record.number);
    }
    text
}
