//! Random calls answered by the library and by this program.

use super::{explain_call, shrink_call};
use crate::entries::{own, Answering, Call};
use crate::random::calls::Calls;
use crate::random::Prng;

/// Calls in one session.
pub const CALLS: usize = 150;

/// Shrinking stops after so many calls of the library.
const SHRINK_CALLS: usize = 50_000;

/// What a call returned, and everything it was lent, afterwards.
#[derive(Clone, Debug, PartialEq)]
pub struct Answered {
    pub returned: u32,
    pub lent: Call,
}

impl Answered {
    pub fn by(answer: Answering, call: &Call) -> Answered {
        let mut lent = call.clone();
        let returned = answer(&mut lent);
        Answered { returned, lent }
    }
}

/// Makes the session's calls; the first that is answered otherwise, as text, in the smallest form found.
pub fn difference(prng: &mut Prng, library: Answering) -> Option<String> {
    let mut calls = Calls::new(prng, CALLS);
    (0..CALLS).map(|_| calls.next(prng)).find(|call| differs(call, library)).map(|call| {
        let mut tried = 0;
        let smallest = shrink_call::shrink(&call, |smaller| {
            tried += 1;
            tried <= SHRINK_CALLS && differs(smaller, library)
        });
        let [own, other] = [own::answer, library].map(|answer| Answered::by(answer, &smallest));
        explain_call::difference(&smallest, &own, &other)
    })
}

fn differs(call: &Call, library: Answering) -> bool {
    Answered::by(own::answer, call) != Answered::by(library, call)
}
