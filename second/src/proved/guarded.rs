//! A lent row with a guard behind it, so that writes beyond the row are seen.

/// Elements behind the row.
const GUARDS: usize = 8;

pub struct Guarded<'a, T> {
    row: &'a mut Vec<T>,
    length: usize,
    guard: T,
}

impl<'a, T: Copy + PartialEq> Guarded<'a, T> {
    pub fn new(row: &'a mut Vec<T>, guard: T) -> Guarded<'a, T> {
        let length = row.len();
        row.resize(length + GUARDS, guard);
        Guarded { row, length, guard }
    }

    pub fn lent(&mut self) -> &mut [T] {
        &mut self.row[..self.length]
    }

    /// The row is as long as before; tells whether the guard is as it was.
    pub fn close(self) -> bool {
        let intact = self.row[self.length..].iter().all(|&element| element == self.guard);
        self.row.truncate(self.length);
        intact
    }
}
