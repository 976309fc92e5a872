//! Random cases. Small ones have tiny alphabets, so that equal hashes, equal positions, ties and touching ranges are
//! common; every number also comes from the ends of its type. One case in eight is broken on purpose, some twice, so that
//! every refusal and the order of refusals is seen.

mod breaks;
mod finders;
mod scripts;
mod sweeps;

use crate::call::Kind;
use crate::case::Case;
use crate::random::Random;

#[derive(Clone, Copy, Debug, PartialEq, Eq)]
pub enum Size {
    /// A handful of everything.
    Small,
    /// Dozens to some thousands: bit words and summary words are crossed.
    Medium,
    /// At document 01's limits.
    Limit,
}

pub fn case(random: &mut Random, size: Size) -> Case {
    let kind = random.pick(&Kind::ALL);
    of(random, size, kind)
}

/// A case of this kind.
pub fn of(random: &mut Random, size: Size, kind: Kind) -> Case {
    let mut case = match kind {
        Kind::Script => Case::Script(scripts::script(random, size)),
        Kind::Sweep(mode) => Case::Sweep(sweeps::sweep(random, size, mode)),
        Kind::Finder(mode) => Case::Finder(finders::finder(random, size, mode)),
    };
    if random.once_in(8) {
        breaks::broken(random, &mut case);
        while random.once_in(3) {
            breaks::broken(random, &mut case);
        }
    }
    case
}

/// At most `n` ascending hashes, each once: neighbours at either end or in the middle of u64, or scattered.
fn alphabet(random: &mut Random, n: u64) -> Vec<u64> {
    let from = match random.below(6) {
        0..=2 => random.below(2),
        3 => u64::MAX - n + 1,
        4 => (1 << 63) - n / 2,
        _ => {
            let mut scattered: Vec<u64> = (0..n).map(|_| random.next()).collect();
            scattered.sort();
            scattered.dedup();
            return scattered;
        }
    };
    (0..n).map(|i| from + i).collect()
}

/// Exactly `want` of the list (or all, if it is shorter), in their order.
fn some_of(random: &mut Random, list: &[u64], want: usize) -> Vec<u64> {
    let mut chosen = Vec::with_capacity(want);
    for (i, &entry) in list.iter().enumerate() {
        let left = (list.len() - i) as u64;
        if random.below(left) < want.saturating_sub(chosen.len()) as u64 {
            chosen.push(entry);
        }
    }
    chosen
}

/// `n` positions that never descend, from a base at either end or in the middle of u32.
fn positions(random: &mut Random, n: usize, widest: u64) -> Vec<u32> {
    let least = random.below(2);
    let most = least + random.pick(&[1, 2, 5, widest]);
    let span = most * n as u64;
    let top = u64::from(u32::MAX);
    let mut at = match random.below(8) {
        0..=4 => random.below(6),
        5 => top.saturating_sub(random.below(span + 2)),
        6 => random.below(top),
        _ => (1 << 31) - random.below(4),
    };
    let mut positions = Vec::with_capacity(n);
    for _ in 0..n {
        positions.push(at.min(top) as u32);
        at += random.within(least, most);
    }
    positions
}

/// A fragment length: mostly modest, and both ends of u32.
fn length(random: &mut Random, widest: u64) -> u32 {
    match random.below(24) {
        0 => 0,
        1 => u32::MAX,
        2 => u32::MAX - random.below(40) as u32,
        _ => random.within(1, 4 + widest) as u32,
    }
}

/// 0 most of the time: how much longer than needed a buffer is.
fn spare(random: &mut Random) -> usize {
    match random.below(4) {
        0 => random.below(4) as usize,
        _ => 0,
    }
}
