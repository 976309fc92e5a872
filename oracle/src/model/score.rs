//! "How many of the k smallest hashes of the union lie in both", and the best of many scores.

use crate::call::Best;

/// The union of query and active hashes, ascending, each once.
pub fn union(query: &[u64], active: &[u64]) -> Vec<u64> {
    let mut all = [query, active].concat();
    all.sort();
    all.dedup();
    all
}

/// Of the union's k smallest hashes, how many are in the query and active; k is the number of query hashes.
pub fn score(query: &[u64], active: &[u64]) -> u32 {
    let mut active = active.to_vec();
    active.sort();
    active.dedup();
    let union = union(query, &active);
    let smallest = &union[..query.len()];
    let in_both =
        |hash: &&u64| query.binary_search(hash).is_ok() && active.binary_search(hash).is_ok();
    smallest.iter().filter(in_both).count() as u32
}

/// A score, and the first and last position of what has it.
#[derive(Clone, Copy, Debug)]
pub struct Scored {
    pub shared: u32,
    pub first: i64,
    pub last: i64,
}

/// The greatest score with the first of its first and the last of its last; none of nothing.
pub fn best(scored: &[Scored]) -> Option<Best> {
    let shared = scored.iter().map(|s| s.shared).max()?;
    let mut winners = scored.iter().filter(|s| s.shared == shared);
    let first = winners.next()?;
    let last = winners.next_back().unwrap_or(first);
    Some(Best {
        shared,
        first: first.first as u64,
        last: last.last as u64,
    })
}
