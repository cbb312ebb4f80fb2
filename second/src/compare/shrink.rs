//! A smaller session that still shows a difference.

use super::cut::{alter, cut, Way};
use super::rebuild;
use crate::list_file;
use crate::random::sessions::{File, Session, LIST, OPERANDS, SCHEDULE};
use crate::report::PATTERN_BYTES;
use crate::words::Fields;
use std::ops::Range;

/// Whole instructions go first: they take most of the schedule with them.
const WAYS: [Way<Session>; 6] = [
    Way { units: instruction_count, without: without_instructions_and_steps },
    Way {
        units: |session| byte_count(session, SCHEDULE),
        without: |session, range| without_bytes(session, SCHEDULE, range),
    },
    Way { units: instruction_count, without: without_instructions },
    Way {
        units: |session| byte_count(session, OPERANDS) / PATTERN_BYTES,
        without: without_patterns,
    },
    Way {
        units: |session| byte_count(session, OPERANDS),
        without: |session, range| without_bytes(session, OPERANDS, range),
    },
    Way {
        units: |session| byte_count(session, LIST),
        without: |session, range| without_bytes(session, LIST, range),
    },
];

/// Cuts as long as `differs` still holds.
pub fn shrink(session: &Session, mut differs: impl FnMut(&Session) -> bool) -> Session {
    let mut best = session.clone();
    loop {
        let before = best.clone();
        for way in &WAYS {
            cut(&mut best, way, &mut differs);
        }
        simplify_words(&mut best, &mut differs);
        simplify_patterns(&mut best, &mut differs);
        if best == before {
            return best;
        }
    }
}

fn bytes_of(session: &Session, index: usize) -> &[u8] {
    match &session.files[index] {
        File::Bytes(bytes) => bytes,
        File::Missing | File::Folder => &[],
    }
}

fn byte_count(session: &Session, index: usize) -> usize {
    bytes_of(session, index).len()
}

fn with_bytes(session: &Session, index: usize, bytes: Vec<u8>) -> Session {
    let mut changed = session.clone();
    changed.files[index] = File::Bytes(bytes);
    changed
}

fn without_bytes(session: &Session, index: usize, range: Range<usize>) -> Option<Session> {
    let mut bytes = bytes_of(session, index).to_vec();
    bytes.drain(range);
    Some(with_bytes(session, index, bytes))
}

fn without_patterns(session: &Session, range: Range<usize>) -> Option<Session> {
    without_bytes(session, OPERANDS, range.start * PATTERN_BYTES..range.end * PATTERN_BYTES)
}

/// 0 for a list that the reader refuses; then only its bytes can be cut.
fn instruction_count(session: &Session) -> usize {
    list_file::read_words(bytes_of(session, LIST)).map_or(0, |words| words.len())
}

fn without_instructions(session: &Session, range: Range<usize>) -> Option<Session> {
    let mut words = list_file::read_words(bytes_of(session, LIST)).ok()?;
    words.drain(range);
    Some(with_bytes(session, LIST, list_file::encode(&words)))
}

fn without_instructions_and_steps(session: &Session, range: Range<usize>) -> Option<Session> {
    let [list, operands, schedule] =
        [LIST, OPERANDS, SCHEDULE].map(|index| bytes_of(session, index));
    let (list, schedule) = rebuild::without((list, operands, schedule), range)?;
    Some(with_bytes(&with_bytes(session, LIST, list), SCHEDULE, schedule))
}

/// Makes each operand field 0 where the difference stays, so that fewer operands are needed.
fn simplify_words(best: &mut Session, differs: &mut impl FnMut(&Session) -> bool) {
    for place in 0..instruction_count(best) {
        let mut words = list_file::read_words(bytes_of(best, LIST)).unwrap_or_default();
        words[place] = Fields { operand: 0, ..Fields::of(words[place]) }.word();
        let file = File::Bytes(list_file::encode(&words));
        alter(best, differs, |simpler| simpler.files[LIST] = file);
    }
}

/// Makes each operand +0 or 1 where the difference stays.
fn simplify_patterns(best: &mut Session, differs: &mut impl FnMut(&Session) -> bool) {
    for start in (0..byte_count(best, OPERANDS) / PATTERN_BYTES).map(|index| index * PATTERN_BYTES)
    {
        for number in [0.0f64, 1.0] {
            let mut bytes = bytes_of(best, OPERANDS).to_vec();
            bytes[start..start + PATTERN_BYTES].copy_from_slice(&number.to_be_bytes());
            if alter(best, differs, |simpler| simpler.files[OPERANDS] = File::Bytes(bytes)) {
                break;
            }
        }
    }
}
