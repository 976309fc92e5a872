//! How cases are drawn: hashes in the shapes that matter, and faults put into calls.

use crate::random::Random;

/// A size from `low` to `high`, both included.
pub fn sized(random: &mut Random, low: usize, high: usize) -> usize {
    random.within(low as u64, high as u64) as usize
}

/// An index into a list that is not empty.
pub fn index(random: &mut Random, length: usize) -> usize {
    random.below(length as u64) as usize
}

/// Strictly ascending hashes: small, around the middle of u64, at its end, in two heaps that differ only in their low
/// bits, or all over u64.
pub fn ascending(random: &mut Random, count: usize) -> Vec<u64> {
    let n = count as u64;
    let heap = random.next() & !0xffff;
    let mut hashes: Vec<u64> = match random.below(5) {
        0 => (0..n).map(|i| 10 * i).collect(),
        1 => (0..n).map(|i| (1 << 63) - n / 2 + i).collect(),
        2 => (0..n).map(|i| u64::MAX - 3 * i).collect(),
        3 => (0..n).map(|i| heap ^ ((i % 2) << 63) | i).collect(),
        _ => (0..n).map(|_| random.next()).collect(),
    };
    hashes.sort_unstable();
    hashes.dedup();
    hashes
}

/// About one in `rate` of a list, in its order.
pub fn some_of<T: Copy>(random: &mut Random, list: &[T], rate: u64) -> Vec<T> {
    let kept = list.iter().filter(|_| random.once_in(rate));
    kept.copied().collect()
}

/// Exchanges two neighbours that differ, so that a list that ascends descends there.
pub fn swap_neighbours<T: PartialEq>(random: &mut Random, list: &mut [T]) {
    let differing: Vec<usize> = (1..list.len())
        .filter(|&i| list[i - 1] != list[i])
        .collect();
    if !differing.is_empty() {
        let i = random.pick(&differing);
        list.swap(i - 1, i);
    }
}

/// Makes an element equal to the one before it.
pub fn repeat_neighbour<T: Copy>(random: &mut Random, list: &mut [T]) {
    if list.len() >= 2 {
        let i = sized(random, 1, list.len() - 1);
        list[i] = list[i - 1];
    }
}

/// Puts something wrong into a call.
pub type Fault<C> = fn(&mut C, &mut Random);

/// For every fault `each` drawn calls that have it, and one that has another fault too: the lower number wins.
pub fn spoilt<C>(
    random: &mut Random,
    draw: impl Fn(&mut Random) -> C,
    faults: &[Fault<C>],
    each: usize,
) -> Vec<C> {
    let mut calls = Vec::new();
    for fault in faults {
        for i in 0..=each {
            let mut call = draw(random);
            fault(&mut call, random);
            if i == each {
                random.pick(faults)(&mut call, random);
            }
            calls.push(call);
        }
    }
    calls
}

/// The names of what holds.
pub fn those_that_hold(kinds: &[(bool, &'static str)]) -> Vec<&'static str> {
    let held = kinds.iter().filter(|kind| kind.0);
    held.map(|kind| kind.1).collect()
}
