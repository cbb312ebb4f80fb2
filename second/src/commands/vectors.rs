//! `read-list` and `check-list`: expected answers of the list reader and the list check.

use super::{numeral, read_file, Outcome};
use second::list_file;
use second::refusal::Refusal;
use second::words::{check_list, CellLimits};
use std::fmt::Write;

pub fn read_list(arguments: &[String]) -> Outcome {
    let [file, room] = arguments else {
        return Err("needs FILE and ROOM".into());
    };
    let bytes = read_file(file)?;
    let mut words = vec![0; numeral(room)?];
    let answer = list_file::read(&bytes, &mut words);
    let (number, place, count) = match answer {
        Ok(count) => (0, bytes.len(), count),
        Err(fault) => (fault.refusal.number(), fault.place, 0),
    };
    let mut text = format!("refusal {number} at {place} count {count}\n");
    for word in &words[..count] {
        let _ = writeln!(text, "{word}");
    }
    Ok(text.into())
}

pub fn check_list_words(arguments: &[String]) -> Outcome {
    let (limits, words) = match arguments {
        [flag, operands, results, words @ ..] if flag == "--areas" => {
            let limits = CellLimits::of_areas(numeral(operands)?, numeral(results)?);
            (limits, words)
        }
        [flag, ..] if flag == "--areas" => return Err("--areas needs OPERANDS and RESULTS".into()),
        words => (CellLimits::NO_AREAS, words),
    };
    let list = words.iter().map(|word| numeral(word)).collect::<Result<Vec<u32>, _>>()?;
    let answer = check_list(&list, limits);
    let place = answer.map_or_else(|fault| fault.place, |()| list.len());
    let number = Refusal::number_of(&answer.map_err(|fault| fault.refusal));
    Ok(format!("refusal {number} at {place}\n").into())
}
