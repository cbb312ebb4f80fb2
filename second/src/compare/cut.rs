//! Cutting parts out of a failing case as long as it still fails.

use std::ops::Range;

/// One way to cut: how many units there are, and the case without some of them.
pub struct Way<T> {
    pub units: fn(&T) -> usize,
    pub without: fn(&T, Range<usize>) -> Option<T>,
}

/// Tries stretches of units, each length half of the one before.
pub fn cut<T>(best: &mut T, way: &Way<T>, fails: &mut impl FnMut(&T) -> bool) {
    let mut length = (way.units)(best);
    while length > 0 {
        let mut start = 0;
        while start < (way.units)(best) {
            let end = (start + length).min((way.units)(best));
            match (way.without)(best, start..end).filter(|smaller| fails(smaller)) {
                Some(smaller) => *best = smaller,
                None => start = end,
            }
        }
        length /= 2;
    }
}

/// Alters the case if it still fails then; true also when the alteration changes nothing.
pub fn alter<T: Clone + PartialEq>(
    best: &mut T,
    fails: &mut impl FnMut(&T) -> bool,
    alteration: impl FnOnce(&mut T),
) -> bool {
    let mut simpler = best.clone();
    alteration(&mut simpler);
    let stays = simpler == *best || fails(&simpler);
    if stays {
        *best = simpler;
    }
    stays
}

/// The way that cuts stretches out of one row, a field of the case.
macro_rules! row_way {
    ($row:ident $(.$inner:ident)*) => {
        Way {
            units: |case| case.$row$(.$inner)*.len(),
            without: |case, range| {
                let mut smaller = case.clone();
                smaller.$row$(.$inner)*.drain(range);
                Some(smaller)
            },
        }
    };
}
pub(crate) use row_way;
