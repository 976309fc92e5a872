//! "Given exactly when": refusals 1 to 8 of each call, checked in number order, with their places.

use super::needs;
use crate::call::{FinderCall, Mode, Refusal, ScriptCall, SweepCall};

pub const MOST_QUERY: usize = 4_096;
pub const MOST_ITEMS: usize = 61_440;
pub const MOST_GROUPS: usize = 4_096;
pub const MOST_STEPS: usize = 65_536;
pub const MOST_COORDS: usize = 65_536;
pub const MOST_MINIMUM: u32 = 2_147_483_647;

type Verdict = Result<(), Refusal>;

/// Refuses with this number at place 0 unless the condition holds.
fn ensure(holds: bool, number: u8) -> Verdict {
    match holds {
        true => Ok(()),
        false => Err(Refusal { number, place: 0 }),
    }
}

/// Refuses with this number at the index of the first offending element, if there is one.
fn ensure_none(offending: Option<usize>, number: u8) -> Verdict {
    match offending {
        None => Ok(()),
        Some(index) => Err(Refusal {
            number,
            place: index as u32,
        }),
    }
}

/// The later of the first two neighbours that do not strictly ascend.
fn first_not_above<T: Ord>(list: &[T]) -> Option<usize> {
    (1..list.len()).find(|&i| list[i - 1] >= list[i])
}

/// The later of the first two neighbours that descend.
fn first_below<T: Ord>(list: &[T]) -> Option<usize> {
    (1..list.len()).find(|&i| list[i - 1] > list[i])
}

pub fn script(call: &ScriptCall) -> Verdict {
    let m = call.coords.len();
    let steps = call.indexes.len();
    ensure(call.query.len() <= MOST_QUERY, 1)?;
    ensure((1..=MOST_COORDS).contains(&m), 1)?;
    ensure(steps <= MOST_STEPS && call.kinds.len() <= MOST_STEPS, 1)?;
    ensure(steps == call.kinds.len(), 3)?;
    ensure(!call.query.is_empty(), 4)?;
    ensure_none(first_not_above(&call.query), 4)?;
    ensure_none(first_not_above(&call.coords), 5)?;
    let missing = |hash: &u64| call.coords.binary_search(hash).is_err();
    ensure_none(call.query.iter().position(missing), 6)?;
    let wrong = |i: &usize| call.indexes[*i] as usize >= m || call.kinds[*i] > 1;
    ensure_none((0..steps).find(wrong), 6)?;
    let (room, need) = (&call.room, needs::script(m, steps));
    ensure(room.counts >= need.counts, 8)?;
    ensure(room.words >= need.words, 8)?;
    ensure(room.summary >= need.summary, 8)?;
    ensure(room.pivots >= need.pivots, 8)?;
    ensure(room.shared >= need.shared, 8)
}

pub fn sweep(call: &SweepCall) -> Verdict {
    sweep_sizes(call)?;
    ensure(call.kmer > 0, 2)?;
    ensure(call.mode == Mode::Interval || call.window > 0, 2)?;
    ensure(call.hashes.len() == call.starts.len(), 3)?;
    ensure(
        call.mode == Mode::Minimizer || call.ends.len() == call.starts.len(),
        3,
    )?;
    ensure(call.identities.len() == call.uppers.len(), 3)?;
    ensure_none(first_not_above(&call.query), 4)?;
    ensure_none(first_below(&call.starts), 5)?;
    ensure(call.identities.len() > call.query.len(), 7)?;
    sweep_needs(call)
}

fn sweep_sizes(call: &SweepCall) -> Verdict {
    ensure(call.query.len() <= MOST_QUERY, 1)?;
    ensure(call.hashes.len() <= MOST_ITEMS, 1)?;
    ensure(call.starts.len() <= MOST_ITEMS, 1)?;
    ensure(
        call.mode == Mode::Minimizer || call.ends.len() <= MOST_ITEMS,
        1,
    )
}

fn sweep_needs(call: &SweepCall) -> Verdict {
    let need = needs::sweep(call.mode, call.query.len(), call.hashes.len());
    let room = &call.room;
    ensure(room.hashes >= need.hashes, 8)?;
    ensure(room.counts >= need.counts, 8)?;
    ensure(room.items >= need.items, 8)?;
    ensure(room.words >= need.words, 8)?;
    ensure(room.summary >= need.summary, 8)?;
    ensure(room.events >= need.events, 8)
}

pub fn finder(call: &FinderCall) -> Verdict {
    let hits = call.contigs.len();
    let has_ends = call.mode == Mode::Interval;
    ensure(call.groups.len() <= MOST_GROUPS, 1)?;
    ensure(hits <= MOST_ITEMS && call.starts.len() <= MOST_ITEMS, 1)?;
    ensure(!has_ends || call.ends.len() <= MOST_ITEMS, 1)?;
    ensure((1..=MOST_MINIMUM).contains(&call.minimum), 2)?;
    ensure(call.starts.len() == hits, 3)?;
    ensure(!has_ends || call.ends.len() == hits, 3)?;
    let grouped: u64 = call.groups.iter().map(|&length| u64::from(length)).sum();
    ensure(grouped == hits as u64, 3)?;
    let (room, need) = (&call.room, needs::finder(call.mode, hits));
    ensure(room.keys >= need.keys, 8)?;
    ensure(room.end_keys >= need.end_keys, 8)?;
    ensure(room.contigs >= need.contigs, 8)?;
    ensure(room.starts >= need.starts, 8)?;
    ensure(room.ends >= need.ends, 8)
}
