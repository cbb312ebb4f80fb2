//! Random operands.

use super::{bytes, Prng};
use crate::report::PATTERN_BYTES;
use crate::words::CELL_LIMIT;

/// Where arithmetic has its edges: signed zeros, subnormals, the least and greatest normal
/// numbers, infinities, and quiet and signalling not-a-numbers with odd payloads.
const EDGES: [u64; 18] = [
    0x0000_0000_0000_0000,
    0x8000_0000_0000_0000,
    0x0000_0000_0000_0001,
    0x8000_0000_0000_0001,
    0x000F_FFFF_FFFF_FFFF,
    0x0010_0000_0000_0000,
    0x8010_0000_0000_0001,
    0x7FEF_FFFF_FFFF_FFFF,
    0xFFEF_FFFF_FFFF_FFFF,
    0x7FF0_0000_0000_0000,
    0xFFF0_0000_0000_0000,
    0x7FF8_0000_0000_0000,
    0xFFF8_0000_0000_0000,
    0x7FF0_0000_0000_0001,
    0xFFF0_DEAD_BEEF_0001,
    0x7FFF_FFFF_FFFF_FFFF,
    0x3FF0_0000_0000_0001,
    0x3FEF_FFFF_FFFF_FFFF,
];

pub fn count(prng: &mut Prng) -> usize {
    match prng.below(100) {
        0..=3 => 0,
        4..=9 => CELL_LIMIT - prng.below(2),
        10..=19 => prng.below(CELL_LIMIT),
        _ => 1 + prng.below(8),
    }
}

pub fn pattern(prng: &mut Prng) -> u64 {
    match prng.below(10) {
        0..=2 => prng.pick(&EDGES),
        // Near 1, so that sums round and products do not run away.
        3..=5 => 0x3FC0_0000_0000_0000 + (prng.number() >> 6) % 0x0080_0000_0000_0000,
        6..=8 => (prng.below(41) as f64 - 20.0).to_bits(),
        _ => prng.number(),
    }
}

pub fn file(patterns: &[u64]) -> Vec<u8> {
    patterns.iter().flat_map(|pattern| pattern.to_be_bytes()).collect()
}

/// A wrong size: a cut pattern, one byte or one pattern too many, or a file at its limit.
pub fn damage(prng: &mut Prng, file: &mut Vec<u8>) {
    let most = CELL_LIMIT * PATTERN_BYTES;
    match prng.below(10) {
        0..=4 => file.truncate(prng.below(file.len() + 1)),
        5 => file.push(0x40),
        6 => file.resize(most + 1, 0),
        7 => file.resize(most + PATTERN_BYTES, 0),
        8 => file.resize(most, 0x3F),
        _ => bytes::fill_to_limit(prng, file),
    }
}
