//! Damage to the bytes of a file.

use super::Prng;
use crate::report::FILE_LIMIT;

/// Bytes that end, lengthen or overfill a number.
const TELLING: [u8; 8] = [0x00, 0x01, 0x03, 0x04, 0x7F, 0x80, 0x81, 0xFF];

fn telling_or_any(prng: &mut Prng) -> u8 {
    if prng.percent(70) {
        prng.pick(&TELLING)
    } else {
        prng.number() as u8
    }
}

/// Whole numbers at the edges of what is allowed, and some that end too early.
const TELLING_NUMBERS: [&[u8]; 9] = [
    &[0x80, 0x00],
    &[0x80, 0x01],
    &[0xFF, 0x7F],
    &[0x80, 0x80],
    &[0x80, 0x80, 0x00],
    &[0x80, 0x80, 0x01],
    &[0xFF, 0xFF, 0x03],
    &[0x80, 0x80, 0x04],
    &[0x80, 0x80, 0x81],
];

/// One to three small changes.
pub fn damage(prng: &mut Prng, bytes: &mut Vec<u8>) {
    for _ in 0..=prng.below(3) {
        damage_once(prng, bytes);
    }
}

fn damage_once(prng: &mut Prng, bytes: &mut Vec<u8>) {
    let byte = telling_or_any(prng);
    // Half of the damage is near the end, where files are cut short or have bytes left.
    let from = if prng.percent(50) { bytes.len().saturating_sub(4) } else { 0 };
    let place = from + prng.below(bytes.len() - from + 1);
    match prng.below(7) {
        0 => bytes.truncate(place),
        1 => bytes.insert(place, byte),
        2 => bytes.push(byte),
        3 if place < bytes.len() => drop(bytes.remove(place)),
        4 if place < bytes.len() => bytes[place] = byte,
        5 if place < bytes.len() => lengthen_number(bytes, place),
        _ => drop(bytes.splice(place..place, prng.pick(&TELLING_NUMBERS).iter().copied())),
    }
}

/// Gives the byte at `place` a following group of 0, which is not the shortest form.
fn lengthen_number(bytes: &mut Vec<u8>, place: usize) {
    bytes[place] |= 0x80;
    bytes.insert(place + 1, 0);
}

/// Fills the file up to its limit or to one byte more.
pub fn fill_to_limit(prng: &mut Prng, bytes: &mut Vec<u8>) {
    let filler = telling_or_any(prng);
    bytes.resize(FILE_LIMIT + prng.below(2), filler);
}
