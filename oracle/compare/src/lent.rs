//! A slice to lend, inside a larger allocation with guards on both sides, all of it filled at random before the call.

use oracle::random::Random;

/// Entries before and after the slice. A call that runs past its slice by less than this is seen in them.
const GUARD: usize = 9;

pub struct Lent<T> {
    all: Vec<T>,
    before: Vec<T>,
    len: usize,
}

impl<T: Copy + PartialEq> Lent<T> {
    pub fn new(len: usize, random: &mut Random, narrow: fn(u64) -> T) -> Self {
        let all: Vec<T> = (0..len + 2 * GUARD)
            .map(|_| narrow(random.next()))
            .collect();
        Lent {
            before: all.clone(),
            all,
            len,
        }
    }

    pub fn slice(&mut self) -> &mut [T] {
        &mut self.all[GUARD..GUARD + self.len]
    }

    /// Whether the slice holds `front`, and every other entry, guards too, is as it was.
    pub fn holds(&self, front: &[T]) -> bool {
        let (start, end) = (GUARD, GUARD + front.len());
        front.len() <= self.len
            && self.all[..start] == self.before[..start]
            && self.all[start..end] == *front
            && self.all[end..] == self.before[end..]
    }
}
