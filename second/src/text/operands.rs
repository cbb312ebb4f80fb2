//! Operands as text: decimal numbers, or patterns as `0x` and up to 16 hexadecimal digits.

use super::{read_lines, LineError};
use crate::numbers::Number;
use crate::refusal::Fault;
use crate::report::{read_operands, PATTERN_BYTES};
use crate::words::CELL_LIMIT;

/// Hexadecimal digits of a whole pattern.
const PATTERN_DIGITS: usize = 2 * PATTERN_BYTES;

/// The operands file of a text.
pub fn to_file(text: &str) -> Result<Vec<u8>, LineError> {
    let numbers = read_lines(text, (CELL_LIMIT, "operands"), number)?;
    Ok(numbers.iter().flat_map(|number| number.pattern().to_be_bytes()).collect())
}

fn number(phrase: &str) -> Result<Number, String> {
    let Some(digits) = phrase.strip_prefix("0x").or_else(|| phrase.strip_prefix("0X")) else {
        return phrase.parse().map(Number).map_err(|_| {
            format!(
                "`{phrase}` is neither a decimal number nor a pattern such as 0x3FF0000000000000"
            )
        });
    };
    let only_digits = digits.bytes().all(|byte| byte.is_ascii_hexdigit());
    u64::from_str_radix(digits, 16)
        .ok()
        .filter(|_| only_digits && digits.len() <= PATTERN_DIGITS)
        .map(Number::from_pattern)
        .ok_or_else(|| format!("`{phrase}` is not 0x and 1 to {PATTERN_DIGITS} hexadecimal digits"))
}

/// The text of an operands file, one number a line.
pub fn to_text(file: &[u8]) -> Result<String, Fault> {
    Ok(read_operands(file)?.into_iter().map(line).collect())
}

/// The shortest decimal that comes back bit for bit; not-a-number as its pattern.
fn line(number: Number) -> String {
    if number.0.is_nan() {
        format!("0x{number}\n")
    } else {
        format!("{:?}\n", number.0)
    }
}
