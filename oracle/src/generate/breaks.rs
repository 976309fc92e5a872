//! Cases broken on purpose: each break touches what one refusal is about. A break need not end in a refusal (a buffer
//! may have been longer than needed, a list empty); the model says which.

use crate::call::{FinderCall, Mode, ScriptCall, SweepCall};
use crate::case::Case;
use crate::model::refusals::{
    MOST_COORDS, MOST_GROUPS, MOST_ITEMS, MOST_MINIMUM, MOST_QUERY, MOST_STEPS,
};
use crate::random::Random;

pub fn broken(random: &mut Random, case: &mut Case) {
    match case {
        Case::Script(call) => broken_script(random, call),
        Case::Sweep(call) => broken_sweep(random, call),
        Case::Finder(call) => broken_finder(random, call),
    }
}

fn broken_script(random: &mut Random, call: &mut ScriptCall) {
    match random.below(8) {
        0 => script_too_large(random, call),
        1 => shorten(random, &mut call.indexes),
        2 => shorten(random, &mut call.kinds),
        3 => disorder(random, &mut call.query),
        4 => disorder(random, &mut call.coords),
        5 => wrong_step(random, call),
        6 => call.query.push(random.pick(&[u64::MAX, 7, 1 << 40])),
        _ => shorten_one(
            random,
            [
                &mut call.room.counts,
                &mut call.room.words,
                &mut call.room.summary,
                &mut call.room.pivots,
                &mut call.room.shared,
            ],
        ),
    }
}

/// A long list is dear to make, so it comes seldom; no query and no coordinate come instead.
fn script_too_large(random: &mut Random, call: &mut ScriptCall) {
    match random.below(40) {
        0 => call.query = (0..=MOST_QUERY as u64).collect(),
        1 => call.coords = (0..=MOST_COORDS as u64).collect(),
        2 => call.indexes = vec![0; MOST_STEPS + 1],
        3 => call.kinds = vec![0; MOST_STEPS + 1],
        4..=20 => call.query.clear(),
        _ => call.coords.clear(),
    }
}

fn wrong_step(random: &mut Random, call: &mut ScriptCall) {
    let steps = call.indexes.len().min(call.kinds.len());
    if steps == 0 {
        return;
    }
    let step = random.below(steps as u64) as usize;
    match random.below(3) {
        0 => call.indexes[step] = call.coords.len() as u32,
        1 => call.indexes[step] = u32::MAX,
        _ => call.kinds[step] = random.pick(&[2, 3, 255]),
    }
}

fn broken_sweep(random: &mut Random, call: &mut SweepCall) {
    match random.below(12) {
        0 => sweep_too_large(random, call),
        1 => call.kmer = 0,
        2 => call.window = 0,
        3 => shorten(random, &mut call.hashes),
        4 => shorten(random, &mut call.starts),
        5 => shorten(random, &mut call.ends),
        6 => shorten(random, &mut call.uppers),
        7 => disorder(random, &mut call.query),
        8 => disorder(random, &mut call.starts),
        9 => {
            let entries = random.within(0, call.query.len() as u64) as usize;
            call.identities.truncate(entries);
            call.uppers.truncate(entries);
        }
        _ => shorten_one(
            random,
            [
                &mut call.room.hashes,
                &mut call.room.counts,
                &mut call.room.items,
                &mut call.room.words,
                &mut call.room.summary,
                &mut call.room.events,
            ],
        ),
    }
}

fn sweep_too_large(random: &mut Random, call: &mut SweepCall) {
    match random.below(40) {
        0 => call.hashes = vec![0; MOST_ITEMS + 1],
        1 => call.starts = vec![0; MOST_ITEMS + 1],
        2 if call.mode == Mode::Interval => call.ends = vec![0; MOST_ITEMS + 1],
        3..=5 => call.query = (0..=MOST_QUERY as u64).collect(),
        _ => call.kmer = 0,
    }
}

fn broken_finder(random: &mut Random, call: &mut FinderCall) {
    match random.below(10) {
        0 => finder_too_large(random, call),
        1 => call.minimum = 0,
        2 => call.minimum = random.pick(&[MOST_MINIMUM + 1, u32::MAX]),
        3 => shorten(random, &mut call.contigs),
        4 => shorten(random, &mut call.starts),
        5 => shorten(random, &mut call.ends),
        6 => call.groups.push(random.pick(&[1, u32::MAX])),
        7 => shorten(random, &mut call.groups),
        _ => shorten_one(
            random,
            [
                &mut call.room.keys,
                &mut call.room.end_keys,
                &mut call.room.contigs,
                &mut call.room.starts,
                &mut call.room.ends,
            ],
        ),
    }
}

fn finder_too_large(random: &mut Random, call: &mut FinderCall) {
    match random.below(40) {
        0 => call.contigs = vec![0; MOST_ITEMS + 1],
        1 => call.starts = vec![0; MOST_ITEMS + 1],
        2 if call.mode == Mode::Interval => call.ends = vec![0; MOST_ITEMS + 1],
        3..=5 => call.groups = vec![0; MOST_GROUPS + 1],
        _ => call.minimum = 0,
    }
}

/// Drops one entry, or most of the list.
fn shorten<T>(random: &mut Random, list: &mut Vec<T>) {
    let length = match random.once_in(4) {
        true => list.len() / 2,
        false => list.len().saturating_sub(1),
    };
    list.truncate(length);
}

/// Swaps two neighbours, or makes them equal.
fn disorder<T: Copy>(random: &mut Random, list: &mut [T]) {
    if list.len() < 2 {
        return;
    }
    let i = random.below(list.len() as u64 - 1) as usize;
    match random.once_in(2) {
        true => list.swap(i, i + 1),
        false => list[i + 1] = list[i],
    }
}

fn shorten_one<const N: usize>(random: &mut Random, rooms: [&mut usize; N]) {
    let chosen = random.below(N as u64) as usize;
    for (i, room) in rooms.into_iter().enumerate() {
        if i == chosen {
            *room = match random.once_in(4) {
                true => 0,
                false => room.saturating_sub(1),
            };
        }
    }
}
