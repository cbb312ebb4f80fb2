//! Schedules as text: `issue`, `arrive 2`, `complete 10`, `grant 2`, `release 1`, and `code 23`
//! for a number that is no known step.

use super::{decimal, read_lines, LineError};
use crate::machine::{CodeRange, STEP_CODES};
use crate::refusal::Fault;
use crate::report::FILE_LIMIT;
use crate::seven_bit;

const CODE: &str = "code";

/// The schedule file of a text.
pub fn to_file(text: &str) -> Result<Vec<u8>, LineError> {
    let mut file = Vec::new();
    for code in read_lines(text, (FILE_LIMIT, "steps"), code)? {
        seven_bit::append(&mut file, code);
    }
    Ok(file)
}

fn code(phrase: &str) -> Result<u16, String> {
    let (name, digits) = phrase.split_once(char::is_whitespace).unwrap_or((phrase, ""));
    let (name, digits) = (name.to_ascii_lowercase(), digits.trim());
    let code = match digits {
        _ if name == CODE => decimal(digits),
        "" => code_named(&name, 0),
        // A step that needs no slot has no number to write.
        _ => decimal(digits).filter(|&slot| slot > 0).and_then(|slot| code_named(&name, slot)),
    };
    code.and_then(|code| u16::try_from(code).ok()).ok_or_else(|| {
        let (steps, greatest) = (known_steps(), seven_bit::GREATEST);
        format!("`{phrase}` is no step: {steps}or `{CODE}` and a number up to {greatest}")
    })
}

fn code_named(name: &str, slot: u32) -> Option<u32> {
    STEP_CODES.iter().filter(|range| range.name == name).find_map(|range| range.code_of_slot(slot))
}

/// What may be written: each name with its numbers.
fn known_steps() -> String {
    let numbers = |ranges: &[CodeRange]| match ranges {
        [range] if range.last == 0 => format!("`{}`, ", range.name),
        [range] => format!("`{} {}` to `{}`, ", range.name, range.first, range.last),
        // Numbers of buffers and of stations, which other names have shown.
        ranges => format!("`{}` with either, ", ranges[0].name),
    };
    STEP_CODES.chunk_by(|one, other| one.name == other.name).map(numbers).collect()
}

/// The text of a schedule file, one step a line.
pub fn to_text(file: &[u8]) -> Result<String, Fault> {
    let mut text = String::new();
    let mut place = 0;
    while place < file.len() {
        let (code, after) = seven_bit::read(file, place).map_err(|refusal| refusal.at(place))?;
        text += &line(u32::from(code));
        place = after;
    }
    Ok(text)
}

fn line(code: u32) -> String {
    let known = STEP_CODES.iter().find_map(|range| Some((range.name, range.slot_of_code(code)?)));
    match known {
        Some((name, 0)) => format!("{name}\n"),
        Some((name, slot)) => format!("{name} {slot}\n"),
        None => format!("{CODE} {code}\n"),
    }
}
