//! Damage to the words of a machine.

use super::{operands, Prng};
use crate::entries::machine_words::{slots_like, LAST_NUMBERS, MACHINE_WORDS, NEXT_PLACE};
use crate::machine::Tag;

/// Tags at the edges of their ranges, with those beside them that name nothing.
const EDGE_TAGS: [u8; 7] = [
    Tag::LAST_BUFFER,
    Tag::LAST_BUFFER + 1,
    Tag::FIRST_STATION,
    Tag::FIRST_ADDER - 1,
    Tag::LAST_STATION,
    Tag::LAST_STATION + 1,
    u8::MAX,
];

/// Numbers that are small when cut to 8, 16 or 32 bits, and the greatest.
const LARGE: [u64; 6] = [1 << 8, 1 << 16, 1 << 32, 1 << 63, u64::MAX - 20, u64::MAX];

/// Damages a machine's words in one to three places; `edges` are the lengths that places and
/// cells are held to.
pub fn damage(prng: &mut Prng, words: &mut [u64], edges: &[usize]) {
    for _ in 0..=prng.below(3) {
        let at = prng.below(MACHINE_WORDS);
        if prng.percent(15) {
            copy_slot(prng, words, at);
        } else {
            words[at] = value(prng, words, at, edges);
        }
    }
}

/// One slot becomes the copy of another of its kind.
fn copy_slot(prng: &mut Prng, words: &mut [u64], at: usize) {
    let slots = slots_like(at);
    let [from, to] = [(); 2].map(|()| slots[prng.below(slots.len())].clone());
    words.copy_within(from, to.start);
}

fn value(prng: &mut Prng, words: &[u64], at: usize, edges: &[usize]) -> u64 {
    match prng.below(10) {
        0 | 1 => small(prng),
        2 => prng.pick(&LARGE).wrapping_add(small(prng)),
        // On either side of a length, or of the next place.
        3 => (prng.pick(edges) as u64).wrapping_sub(1).wrapping_add(prng.below(3) as u64),
        4 => words[NEXT_PLACE].wrapping_sub(1).wrapping_add(prng.below(3) as u64),
        5 => words[at].wrapping_sub(1).wrapping_add(2 * prng.below(2) as u64),
        6 => operands::pattern(prng),
        7 => prng.number(),
        8 => words[prng.below(MACHINE_WORDS)],
        _ => same_field(prng, words, at),
    }
}

/// A state, kind or operation, or one above the last of them, or a tag.
fn small(prng: &mut Prng) -> u64 {
    let above_last = LAST_NUMBERS.into_iter().max().map_or(0, |last| last + 1);
    let numbers: Vec<u64> = (0..=above_last).chain(EDGE_TAGS.map(u64::from)).collect();
    prng.pick(&numbers)
}

/// The word that stands in a slot of the same kind where this one stands in its own.
fn same_field(prng: &mut Prng, words: &[u64], at: usize) -> u64 {
    let slots = slots_like(at);
    let field = (at - slots[0].start) % slots[0].len();
    words[slots[prng.below(slots.len())].start + field]
}
