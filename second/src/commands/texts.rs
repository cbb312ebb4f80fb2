//! Files from text and back.

use super::{read_file, Outcome};
use second::refusal::Fault;
use second::text::{assembly, operands, schedules, LineError};

pub fn assemble(arguments: &[String]) -> Outcome {
    file_from_text(arguments, assembly::assemble)
}

pub fn listing(arguments: &[String]) -> Outcome {
    text_from_file(arguments, assembly::listing)
}

pub fn operands(arguments: &[String]) -> Outcome {
    file_from_text(arguments, operands::to_file)
}

pub fn operands_text(arguments: &[String]) -> Outcome {
    text_from_file(arguments, operands::to_text)
}

pub fn schedule(arguments: &[String]) -> Outcome {
    file_from_text(arguments, schedules::to_file)
}

pub fn schedule_text(arguments: &[String]) -> Outcome {
    text_from_file(arguments, schedules::to_text)
}

fn file_from_text(
    arguments: &[String],
    convert: fn(&str) -> Result<Vec<u8>, LineError>,
) -> Outcome {
    let name = only_name(arguments)?;
    let text = String::from_utf8(read_file(name)?).map_err(|_| format!("{name}: is not text"))?;
    let file = convert(&text).map_err(|error| format!("{name}: {error}"))?;
    Ok(file.into())
}

fn text_from_file(arguments: &[String], convert: fn(&[u8]) -> Result<String, Fault>) -> Outcome {
    let name = only_name(arguments)?;
    let text = convert(&read_file(name)?).map_err(|fault| format!("{name}: {fault}"))?;
    Ok(text.into())
}

fn only_name(arguments: &[String]) -> Result<&str, String> {
    match arguments {
        [name] => Ok(name),
        _ => Err("needs one file name".into()),
    }
}
