//! `lists`: what the proved test program `lists` should print of the files it is given.

use super::{read_file, Outcome};
use second::list_file;
use second::refusal::{Fault, Refusal};
use second::report::FILE_LIMIT;
use second::words::{check_list, CellLimits, LIST_LIMIT};
use std::fmt::Write;

/// What the test program lends: a short word buffer, bytes for the writer, and two areas.
const SHORT_BUFFER: usize = 2;
const WRITER_BYTES: usize = 12;
const AREAS: (usize, usize) = (2, 3);

/// Words of the buffer that are shown.
const SHOWN_WORDS: usize = 4;

pub fn lists(arguments: &[String]) -> Outcome {
    let mut text = String::new();
    for name in arguments {
        let bytes = read_file(name)?;
        text.push_str(name);
        match name.bytes().next() {
            Some(b'w') => list_words(&mut text, &bytes),
            Some(b's') => list_file(&mut text, &bytes, SHORT_BUFFER),
            _ => list_file(&mut text, &bytes, LIST_LIMIT),
        }
    }
    Ok(text.into())
}

/// The reader's answer, the writer's from the words read, and the first words of the buffer.
fn list_file(text: &mut String, bytes: &[u8], room: usize) {
    let mut words = vec![7; room];
    let answer = list_file::read(bytes, &mut words);
    let count = answer.unwrap_or(0);
    say(text, "read", answer.map(|_| bytes.len()));
    let _ = write!(text, " count {count}");
    let mut back = vec![0; FILE_LIMIT];
    let length = say_written(text, &words[..count], &mut back);
    text.push_str(if back[..length] == *bytes { " same words" } else { " words" });
    for word in words.iter().take(SHOWN_WORDS) {
        let _ = write!(text, " {word}");
    }
    text.push('\n');
}

/// The check alone and against areas, and the writer's answer with room for a few bytes.
fn list_words(text: &mut String, bytes: &[u8]) {
    let word = |bytes: &[u8]| u32::from_be_bytes(bytes.try_into().unwrap());
    let list: Vec<u32> = bytes.chunks_exact(size_of::<u32>()).map(word).collect();
    let areas = CellLimits::of_areas(AREAS.0, AREAS.1);
    for (what, limits) in [("alone", CellLimits::NO_AREAS), ("areas", areas)] {
        say(text, what, check_list(&list, limits).map(|()| list.len()));
    }
    let mut file = [9; WRITER_BYTES];
    say_written(text, &list, &mut file);
    text.push_str(" bytes");
    for byte in file {
        let _ = write!(text, " {byte:02x}");
    }
    text.push('\n');
}

fn say_written(text: &mut String, list: &[u32], bytes: &mut [u8]) -> usize {
    let written = list_file::write(list, bytes);
    let place =
        check_list(list, CellLimits::NO_AREAS).map_or_else(|fault| fault.place, |()| list.len());
    let number = Refusal::number_of(&written);
    let length = written.unwrap_or(0);
    let _ = write!(text, " write {number} at {place} length {length}");
    length
}

fn say(text: &mut String, what: &str, answer: Result<usize, Fault>) {
    let (number, place) =
        answer.map_or_else(|fault| (fault.refusal.number(), fault.place), |place| (0, place));
    let _ = write!(text, " {what} {number} at {place}");
}
