//! The list file: the count, then operation, R1 and operand for each word (01, "The list file
//! and the schedule").

use crate::refusal::{Fault, Refusal};
use crate::seven_bit;
use crate::words::{check_list, register_index, CellLimits, Fields, Operation, LIST_LIMIT};

/// Reads the file into the lent words and answers the count. An accepted read has the file's
/// length as its place, a refused one the count 0.
pub fn read(bytes: &[u8], words: &mut [u32]) -> Result<usize, Fault> {
    let (count, mut place) = seven_bit::read(bytes, 0).map_err(|refusal| refusal.at(0))?;
    let count = usize::from(count);
    if count > LIST_LIMIT {
        return Err(Refusal::ListTooLong.at(0));
    }
    if count > words.len() {
        return Err(Refusal::TooSmall.at(0));
    }
    // A refused read writes nothing, so the words wait here until the last byte is good.
    let mut read_words = [0; LIST_LIMIT];
    for word in &mut read_words[..count] {
        (*word, place) = read_word(bytes, place)?;
    }
    if place < bytes.len() {
        return Err(Refusal::BytesLeft.at(place));
    }
    words[..count].copy_from_slice(&read_words[..count]);
    Ok(count)
}

fn read_word(bytes: &[u8], place: usize) -> Result<(u32, usize), Fault> {
    let (number, operation, r1_place) = read_checked(bytes, place, Operation::of_number)?;
    let (r1, _, operand_place) = read_checked(bytes, r1_place, register_index)?;
    let (operand, _, after) = read_checked(bytes, operand_place, |operand| {
        operation.operand(operand, CellLimits::NO_AREAS)
    })?;
    let fields = Fields { operation: number, r1, operand };
    Ok((fields.word(), after))
}

/// One number of a word, what its check makes of it, and the place after it.
fn read_checked<T>(
    bytes: &[u8],
    place: usize,
    check: impl Fn(u32) -> Result<T, Refusal>,
) -> Result<(u32, T, usize), Fault> {
    let read = || {
        let (number, after) = seven_bit::read(bytes, place)?;
        let number = u32::from(number);
        Ok((number, check(number)?, after))
    };
    read().map_err(|refusal: Refusal| refusal.at(place))
}

/// The words of a whole file.
pub fn read_words(bytes: &[u8]) -> Result<Vec<u32>, Fault> {
    let mut words = vec![0; LIST_LIMIT];
    let count = read(bytes, &mut words)?;
    words.truncate(count);
    Ok(words)
}

/// Writes the list's file and answers its length; a refused write leaves every byte.
pub fn write(list: &[u32], bytes: &mut [u8]) -> Result<usize, Refusal> {
    check_list(list, CellLimits::NO_AREAS).map_err(|fault| fault.refusal)?;
    let length = file_length(list);
    let file = bytes.get_mut(..length).ok_or(Refusal::TooSmall)?;
    fill(list, file);
    Ok(length)
}

/// The file of at most 65,535 words, good or not: a bad list makes a file that readers refuse.
pub fn encode(list: &[u32]) -> Vec<u8> {
    let mut file = vec![0; file_length(list)];
    fill(list, &mut file);
    file
}

fn file_length(list: &[u32]) -> usize {
    let word_length = |&word: &u32| file_numbers(word).map(seven_bit::length).iter().sum::<usize>();
    seven_bit::length(list.len() as u16) + list.iter().map(word_length).sum::<usize>()
}

fn fill(list: &[u32], file: &mut [u8]) {
    let mut place = seven_bit::write(file, 0, list.len() as u16);
    for &word in list {
        for number in file_numbers(word) {
            place = seven_bit::write(file, place, number);
        }
    }
}

/// The three numbers of a word; each field has at most 16 bits.
fn file_numbers(word: u32) -> [u16; 3] {
    let fields = Fields::of(word);
    [fields.operation as u16, fields.r1 as u16, fields.operand as u16]
}
