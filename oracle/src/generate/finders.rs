//! Both finders.

use super::{length, positions, spare, Size};
use crate::call::{FinderCall, FinderRoom, Mode};
use crate::model::needs;
use crate::model::refusals::{MOST_GROUPS, MOST_ITEMS, MOST_MINIMUM};
use crate::random::Random;

pub fn finder(random: &mut Random, size: Size, mode: Mode) -> FinderCall {
    let (hits, widest, groups) = match size {
        Size::Small => (random.below(10), 6, 4),
        Size::Medium => (random.below(600), 40, 64),
        Size::Limit => {
            let hits = random.pick(&[MOST_ITEMS, MOST_ITEMS - 1, 20_000]);
            (hits as u64, 100, MOST_GROUPS as u64)
        }
    };
    let mut starts = positions(random, hits as usize, widest);
    shuffle(random, &mut starts);
    let contigs = contigs(random, starts.len());
    let ends = match mode {
        Mode::Minimizer => Vec::new(),
        Mode::Interval => ends(random, &starts, widest),
    };
    FinderCall {
        mode,
        groups: groups_of(random, hits, groups),
        minimum: minimum(random),
        length: length(random, 2 * widest),
        threshold: threshold(random),
        room: room(random, mode, starts.len()),
        contigs,
        starts,
        ends,
    }
}

/// A finder's hits may come in any order.
fn shuffle(random: &mut Random, list: &mut [u32]) {
    for i in (1..list.len()).rev() {
        list.swap(i, random.below(i as u64 + 1) as usize);
    }
}

fn contigs(random: &mut Random, hits: usize) -> Vec<u32> {
    let from = random.pick(&[0, 0, 0, 7, u32::MAX - 2]);
    let several = random.within(1, 3);
    (0..hits)
        .map(|_| from + random.below(several) as u32)
        .collect()
}

/// Some intervals are empty or reversed; some reach to the end of u32.
fn ends(random: &mut Random, starts: &[u32], widest: u64) -> Vec<u32> {
    let mut end = |&start: &u32| match random.below(12) {
        0 => start,
        1 => start.saturating_sub(random.below(4) as u32),
        2 => u32::MAX,
        _ => start.saturating_add(random.within(1, widest) as u32),
    };
    starts.iter().map(&mut end).collect()
}

/// The hits cut into at most `most` groups, empty ones among them; now and then into just as many.
fn groups_of(random: &mut Random, hits: u64, most: u64) -> Vec<u32> {
    let mut groups = Vec::new();
    let mut left = hits;
    let want = random.within(1, most);
    while left > 0 && (groups.len() as u64) + 1 < want {
        let length = random.within(0, left.min(2 * hits / want + 1));
        groups.push(length as u32);
        left -= length;
    }
    if left > 0 {
        groups.push(left as u32);
    }
    if random.once_in(4) {
        groups.resize(most as usize, 0);
    }
    groups
}

fn minimum(random: &mut Random) -> u32 {
    match random.below(24) {
        0 => MOST_MINIMUM,
        1 => random.within(5, 700) as u32,
        _ => random.within(1, 4) as u32,
    }
}

fn threshold(random: &mut Random) -> u64 {
    match random.below(12) {
        0 => 0,
        1 => 1,
        2 => u64::MAX - 1,
        3..=6 => random.within(2, 12),
        _ => u64::MAX,
    }
}

fn room(random: &mut Random, mode: Mode, hits: usize) -> FinderRoom {
    let need = needs::finder(mode, hits);
    FinderRoom {
        keys: need.keys + spare(random),
        end_keys: need.end_keys + spare(random),
        contigs: need.contigs + spare(random),
        starts: need.starts + spare(random),
        ends: need.ends + spare(random),
    }
}
