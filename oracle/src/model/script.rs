//! The script of inserts and deletes: after each step the union is sorted and looked at afresh.

use super::score::union;
use crate::call::{ScriptAnswer, ScriptCall};

/// The answer to a script that is not refused.
pub fn answer(call: &ScriptCall) -> ScriptAnswer {
    let mut counts = vec![0u32; call.coords.len()];
    let mut last = look(call, &counts);
    let mut pivots = Vec::new();
    let mut shared = Vec::new();
    for (&index, &kind) in call.indexes.iter().zip(&call.kinds) {
        let count = &mut counts[index as usize];
        *count = stepped(*count, kind);
        last = look(call, &counts);
        pivots.push(last.0);
        shared.push(last.1);
    }
    ScriptAnswer::Done {
        pivots,
        shared,
        last,
    }
}

/// Insert raises the count, delete lowers it; deleting at 0 does nothing.
fn stepped(count: u32, kind: u8) -> u32 {
    match kind {
        1 => count + 1,
        _ => count.saturating_sub(1),
    }
}

/// The coordinate number of the union's k-th smallest, and how many coordinates through it are in the query and active.
fn look(call: &ScriptCall, counts: &[u32]) -> (u32, u32) {
    let coords = call.coords.iter().zip(counts);
    let active: Vec<u64> = coords
        .filter(|(_, &count)| count > 0)
        .map(|(&hash, _)| hash)
        .collect();
    let pivot_hash = union(&call.query, &active)[call.query.len() - 1];
    let pivot = call.coords.partition_point(|&hash| hash < pivot_hash);
    let through_pivot = |hash: &&u64| **hash <= pivot_hash;
    let in_query = |hash: &&u64| call.query.binary_search(hash).is_ok();
    let shared = active.iter().filter(through_pivot).filter(in_query).count();
    (pivot as u32, shared as u32)
}
