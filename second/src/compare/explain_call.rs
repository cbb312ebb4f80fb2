//! A call that is answered in two ways, as text.

use super::entries::Answered;
use crate::entries::{machine_words, Call, Entry, WROTE_BEYOND};
use crate::numbers::Number;
use std::fmt::{Display, LowerHex};

/// Longer rows are shown up to here.
const SHOWN: usize = 40;

pub fn difference(given: &Call, own: &Answered, other: &Answered) -> String {
    let other_answer = match other.returned {
        WROTE_BEYOND => "after writing beyond a row".into(),
        returned => returned.to_string(),
    };
    format!(
        "{} is answered in two ways\nsmallest case found:\n{}second answers {}:\n{}the library answers {other_answer}:\n{}",
        given.entry.name(),
        case(given),
        own.returned,
        changes(given, &own.lent),
        changes(given, &other.lent),
    )
}

fn case(call: &Call) -> String {
    let code =
        if call.entry == Entry::Step { format!("  code {}\n", call.code) } else { "".into() };
    let zeros_left_out = call.machine.iter().enumerate().filter(|(_, &value)| value != 0);
    let machine: String =
        zeros_left_out.map(|(at, &value)| format!("    {}\n", machine_word(at, value))).collect();
    let heading = format!("  machine, {} words, 0 where not said\n", call.machine.len());
    let machine = if call.machine.is_empty() { "".into() } else { heading + &machine };
    let rows = rows(call).into_iter().filter(|row| row.length > 0).map(|row| row.text);
    code + &machine + &rows.collect::<String>()
}

/// The rows that an answer left otherwise than they were.
fn changes(given: &Call, answered: &Call) -> String {
    let differs = |at: usize| given.machine.get(at) != answered.machine.get(at);
    let machine = (0..answered.machine.len())
        .filter(|&at| differs(at))
        .map(|at| format!("  {}\n", machine_word(at, answered.machine[at])));
    let (before, after) = (rows(given), rows(answered));
    let rows =
        before.iter().zip(after).filter(|(old, new)| old.text != new.text).map(|(_, new)| new.text);
    let text: String = machine.chain(rows).collect();
    if text.is_empty() {
        return "  all that is lent stays as it was\n".into();
    }
    text
}

fn machine_word(at: usize, value: u64) -> String {
    format!("word {at}, {}: {value} (0x{value:x})", machine_words::name(at))
}

struct Row {
    length: usize,
    text: String,
}

fn rows(call: &Call) -> [Row; 7] {
    [
        hexadecimal("list", &call.list),
        decimal("operands", &call.operands),
        decimal("results", &call.results),
        decimal("starts", &call.starts),
        hexadecimal("file", &call.file),
        hexadecimal("log", &call.log),
        decimal("answer", &call.answer),
    ]
}

fn hexadecimal<T: LowerHex>(name: &str, row: &[T]) -> Row {
    shown(name, row, |value| format!(" {value:x}"))
}

/// Numbers show their pattern.
fn decimal<T: Display>(name: &str, row: &[T]) -> Row {
    shown(name, row, |value| format!(" {value}"))
}

fn shown<T>(name: &str, row: &[T], text: fn(&T) -> String) -> Row {
    let values: String = row.iter().take(SHOWN).map(text).collect();
    let more = if row.len() > SHOWN { " .." } else { "" };
    Row { length: row.len(), text: format!("  {name}, {}:{values}{more}\n", row.len()) }
}

/// A row of numbers in one line.
pub fn numbers(name: &str, row: &[Number]) -> String {
    decimal(name, row).text
}
