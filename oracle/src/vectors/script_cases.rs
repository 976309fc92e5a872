//! Scripts: drawn ones, each fault in them, and those at the edges.

use std::collections::BTreeMap;

use super::draw::{
    ascending, index, repeat_neighbour, sized, some_of, spoilt, swap_neighbours, those_that_hold,
    Fault,
};
use crate::call::ScriptCall;
use crate::model::needs;
use crate::random::Random;

pub fn cases(random: &mut Random) -> Vec<ScriptCall> {
    let mut cases = vec![without_steps(), full_query(), query_too_long()];
    cases.extend(three_words());
    cases.extend((0..200).map(|_| small(random)));
    cases.extend(spoilt(random, rich, FAULTS, 6));
    cases.extend((0..5).map(|_| drawn(random, 400, 600)));
    cases.push(drawn(random, 4_200, 500));
    cases.extend([sparse(400), sparse(4_200)]);
    cases
}

/// A script with exactly the room it needs. A step is an index and a kind.
fn script(query: &[u64], coords: &[u64], steps: &[(u32, u8)]) -> ScriptCall {
    ScriptCall {
        query: query.to_vec(),
        coords: coords.to_vec(),
        indexes: steps.iter().map(|step| step.0).collect(),
        kinds: steps.iter().map(|step| step.1).collect(),
        room: needs::script(coords.len(), steps.len()),
    }
}

fn without_steps() -> ScriptCall {
    script(&[20, 40], &[10, 20, 30, 40, 50], &[])
}

/// 4,096 query hashes are not too many: the first that is missing is what is wrong.
fn full_query() -> ScriptCall {
    script(&(0..4_096).collect::<Vec<_>>(), &[0, 1, 2], &[])
}

/// One hash more: the missing ones come later in the order of checks.
fn query_too_long() -> ScriptCall {
    script(&(0..4_097).collect::<Vec<_>>(), &[0, 1, 2], &[])
}

/// 129 coordinates take three bit words: all three lent, and one fewer.
fn three_words() -> [ScriptCall; 2] {
    let coords: Vec<u64> = (0..129).collect();
    let enough = script(&[3, 128], &coords, &[(127, 1), (0, 1), (128, 1), (0, 0)]);
    let mut short = enough.clone();
    short.room.words = 2;
    [enough, short]
}

/// With two query hashes or more, and steps.
fn rich(random: &mut Random) -> ScriptCall {
    loop {
        let call = small(random);
        if call.query.len() >= 2 && !call.indexes.is_empty() {
            return call;
        }
    }
}

fn small(random: &mut Random) -> ScriptCall {
    let count = sized(random, 1, 12);
    let steps = sized(random, 0, 19);
    drawn(random, count, steps)
}

/// Inserts and deletes in equal parts, about a third of the coordinates in the query, room to spare now and then.
fn drawn(random: &mut Random, count: usize, steps: usize) -> ScriptCall {
    let coords = ascending(random, count);
    let mut query = some_of(random, &coords, 3);
    if query.is_empty() {
        query.push(random.pick(&coords));
    }
    let steps: Vec<(u32, u8)> = (0..steps)
        .map(|_| (index(random, coords.len()) as u32, random.below(2) as u8))
        .collect();
    let mut call = script(&query, &coords, &steps);
    call.room.counts += random.pick(&[0, 0, 3]);
    call.room.words += random.pick(&[0, 0, 2]);
    call.room.summary += random.pick(&[0, 0, 1]);
    call.room.pivots += random.pick(&[0, 0, 4]);
    call.room.shared += random.pick(&[0, 0, 5]);
    call
}

/// Two query hashes far apart and hardly another active: the pivot goes over many empty words, forth and back, to the
/// other query hash or to one between.
fn sparse(count: u32) -> ScriptCall {
    let coords: Vec<u64> = (0..u64::from(count)).collect();
    let query = [10, u64::from(count) - 10];
    let mut steps = Vec::new();
    for far in [63, 64, 200, count / 2, count - 105, count - 104, count - 1] {
        steps.extend([(far, 1), (5, 1), (5, 0), (far, 0), (5, 1), (5, 0)]);
    }
    script(&query, &coords, &steps)
}

const FAULTS: &[Fault<ScriptCall>] = &[
    |call, _| call.coords.clear(),
    |call, _| call.kinds.push(0),
    |call, _| call.indexes.push(0),
    |call, _| call.query.clear(),
    |call, random| swap_neighbours(random, &mut call.query),
    |call, random| repeat_neighbour(random, &mut call.query),
    |call, random| swap_neighbours(random, &mut call.coords),
    |call, random| repeat_neighbour(random, &mut call.coords),
    lose_a_query_hash,
    index_past,
    unknown_kind,
    |call, _| call.room.counts = call.coords.len().saturating_sub(1),
    |call, _| call.room.words = 0,
    |call, _| call.room.summary = 0,
    |call, _| call.room.pivots = call.indexes.len().saturating_sub(1),
    |call, _| call.room.shared = call.indexes.len().saturating_sub(1),
];

/// Takes a query hash from the coordinates.
fn lose_a_query_hash(call: &mut ScriptCall, random: &mut Random) {
    if !call.query.is_empty() {
        let hash = random.pick(&call.query);
        call.coords.retain(|&coord| coord != hash);
    }
}

fn index_past(call: &mut ScriptCall, random: &mut Random) {
    if !call.indexes.is_empty() {
        let at = index(random, call.indexes.len());
        call.indexes[at] = random.pick(&[call.coords.len() as u32, u32::MAX]);
    }
}

fn unknown_kind(call: &mut ScriptCall, random: &mut Random) {
    if !call.kinds.is_empty() {
        let at = index(random, call.kinds.len());
        call.kinds[at] = random.pick(&[2, 255]);
    }
}

/// What must be among the records.
pub const KINDS: &[&str] = &[
    "refused 1",
    "refused 3",
    "refused 4",
    "refused 5",
    "refused 4 above place 1",
    "refused 5 above place 1",
    "refused 6 above place 1",
    "refused 6 for the query",
    "refused 6 for an index",
    "refused 6 for a kind",
    "refused 8",
    "done",
    "no steps",
    "delete at count 0",
    "upper-half hashes",
    "two bit words",
    "two summary words",
];

/// What an accepted script shows, for the census.
pub fn shows(call: &ScriptCall) -> Vec<&'static str> {
    let upper_half = |&hash: &u64| hash >> 63 == 1;
    those_that_hold(&[
        (true, "done"),
        (call.indexes.is_empty(), "no steps"),
        (deletes_at_0(call), "delete at count 0"),
        (call.coords.iter().any(upper_half), "upper-half hashes"),
        (call.coords.len() > 64, "two bit words"),
        (call.coords.len() > 4_096, "two summary words"),
    ])
}

/// What a script refused with 6 shows: 6 comes of the query, of a step's index or of a step's kind.
pub fn shows_6(call: &ScriptCall, place: u32) -> &'static str {
    let at = place as usize;
    if call.query.iter().any(|hash| !call.coords.contains(hash)) {
        return "refused 6 for the query";
    }
    if call.indexes[at] as usize >= call.coords.len() {
        return "refused 6 for an index";
    }
    "refused 6 for a kind"
}

fn deletes_at_0(call: &ScriptCall) -> bool {
    let mut counts: BTreeMap<u32, u32> = BTreeMap::new();
    let mut met = false;
    for (&index, &kind) in call.indexes.iter().zip(&call.kinds) {
        let count = counts.entry(index).or_default();
        met |= kind == 0 && *count == 0;
        *count = match kind {
            0 => count.saturating_sub(1),
            _ => *count + 1,
        };
    }
    met
}
