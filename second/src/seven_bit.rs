//! Numbers of a file: groups of seven bits, low group first, the top bit set where another
//! group follows (01, "The list file and the schedule").

use crate::refusal::Refusal;

const GROUP_BITS: u32 = 7;
const MORE: u8 = 1 << GROUP_BITS;
const GROUP: u8 = MORE - 1;

/// The greatest number, those of one group and of two, and what it leaves for a third.
pub const GREATEST: u16 = u16::MAX;
const GREATEST_OF_ONE: u16 = GROUP as u16;
const GREATEST_OF_TWO: u16 = (1 << (2 * GROUP_BITS)) - 1;
const GREATEST_THIRD: u8 = (GREATEST >> (2 * GROUP_BITS)) as u8;

/// The number that begins at `place`, and the place after it.
pub fn read(bytes: &[u8], place: usize) -> Result<(u16, usize), Refusal> {
    let byte = |index: usize| bytes.get(place + index).copied().ok_or(Refusal::FileEnds);
    let first = byte(0)?;
    if first & MORE == 0 {
        return Ok((u16::from(first), place + 1));
    }
    let second = byte(1)?;
    let low = u16::from(first & GROUP) | u16::from(second & GROUP) << GROUP_BITS;
    if second & MORE == 0 {
        return if second == 0 { Err(Refusal::BadNumber) } else { Ok((low, place + 2)) };
    }
    // Two groups hold 14 bits, so 65,535 leaves the third only the values 1 to 3; a top bit set
    // there is refused with the rest, whether or not a fourth byte follows.
    match byte(2)? {
        third @ 1..=GREATEST_THIRD => Ok((low | u16::from(third) << (2 * GROUP_BITS), place + 3)),
        _ => Err(Refusal::BadNumber),
    }
}

/// Bytes that `number` takes in shortest form.
pub fn length(number: u16) -> usize {
    1 + usize::from(number > GREATEST_OF_ONE) + usize::from(number > GREATEST_OF_TWO)
}

/// Writes `number` at `place`, where there must be room, and answers the place after it.
pub fn write(bytes: &mut [u8], mut place: usize, mut number: u16) -> usize {
    while number > GREATEST_OF_ONE {
        bytes[place] = number as u8 | MORE;
        number >>= GROUP_BITS;
        place += 1;
    }
    bytes[place] = number as u8;
    place + 1
}

pub fn append(bytes: &mut Vec<u8>, number: u16) {
    let place = bytes.len();
    bytes.resize(place + length(number), 0);
    write(bytes, place, number);
}
