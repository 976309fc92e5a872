//! Finders of both modes: drawn ones, each fault in them, and those at the edges.

use super::draw::{sized, spoilt, those_that_hold, Fault};
use crate::call::{Candidate, FinderCall, Mode};
use crate::model::needs;
use crate::random::Random;

pub fn cases(random: &mut Random, mode: Mode) -> Vec<FinderCall> {
    let mut cases = match mode {
        Mode::Minimizer => minimizer_edges(),
        Mode::Interval => interval_edges(),
    };
    cases.extend([empty_groups(mode, 4_096), empty_groups(mode, 4_097)]);
    cases.extend((0..240).map(|_| small(random, mode)));
    cases.extend(spoilt(random, |random| rich(random, mode), FAULTS, 5));
    if mode == Mode::Interval {
        let draw = |random: &mut Random| rich(random, mode);
        cases.extend(spoilt(random, draw, INTERVAL_FAULTS, 5));
    }
    cases.extend((0..6).map(|_| medium(random, mode)));
    cases
}

/// Contig, position or start, end; a minimizer has no end.
type Hit = (u32, u32, u32);

/// A finder that drops no group, with exactly the room it needs.
fn finder(mode: Mode, groups: &[u32], hits: &[Hit], minimum: u32, length: u32) -> FinderCall {
    let ends = hits.iter().map(|hit| hit.2);
    FinderCall {
        mode,
        groups: groups.to_vec(),
        contigs: hits.iter().map(|hit| hit.0).collect(),
        starts: hits.iter().map(|hit| hit.1).collect(),
        ends: ends.filter(|_| mode == Mode::Interval).collect(),
        minimum,
        length,
        threshold: u64::MAX,
        room: needs::finder(mode, hits.len()),
    }
}

fn one_group(mode: Mode, hits: &[Hit], minimum: u32, length: u32) -> FinderCall {
    finder(mode, &[hits.len() as u32], hits, minimum, length)
}

fn minimizer_edges() -> Vec<FinderCall> {
    let last = u32::MAX;
    let make = |hits: &[Hit], minimum, length| one_group(Mode::Minimizer, hits, minimum, length);
    vec![
        make(&[(3, last, 0), (3, 0, 0), (last, 9, 0)], 1, last),
        make(&[(3, 4, 0)], 1, 0),
        make(&[(3, 4, 0)], 2_147_483_647, 10),
        make(&[], 1, 10),
    ]
}

fn interval_edges() -> Vec<FinderCall> {
    let last = u32::MAX;
    let make = |hits: &[Hit], minimum| one_group(Mode::Interval, hits, minimum, 0);
    vec![
        make(&[(0, 2, 4), (0, 4, 6)], 1),
        make(&[(3, 0, last), (3, 7, 7), (last, last - 1, last)], 1),
        make(&[(3, 4, 5)], 2_147_483_647),
        make(&[], 1),
    ]
}

/// As many groups as a call may carry, or one more.
fn empty_groups(mode: Mode, count: usize) -> FinderCall {
    finder(mode, &vec![0; count], &[], 1, 10)
}

/// With a hit or more.
fn rich(random: &mut Random, mode: Mode) -> FinderCall {
    loop {
        let call = small(random, mode);
        if !call.contigs.is_empty() {
            return call;
        }
    }
}

fn small(random: &mut Random, mode: Mode) -> FinderCall {
    let count = sized(random, 0, 8);
    let groups: Vec<u32> = (0..count).map(|_| random.below(5) as u32).collect();
    let base = random.pick(&[0, 0, 100, 1 << 31, u32::MAX - 25]);
    let mut call = drawn(random, mode, &groups, base, 20);
    call.minimum = random.pick(&[1, 1, 2, 2, 3]);
    call.length = random.pick(&[0, 1, 3, 6, 10, 20, u32::MAX]);
    call.threshold = random.pick(&[u64::MAX, u64::MAX, 0, 3, 4, 4]);
    call
}

fn medium(random: &mut Random, mode: Mode) -> FinderCall {
    let groups: Vec<u32> = (0..150).map(|_| random.below(9) as u32).collect();
    let mut call = drawn(random, mode, &groups, 0, 4_000);
    call.minimum = match mode {
        Mode::Minimizer => random.within(2, 12) as u32,
        Mode::Interval => random.within(20, 40) as u32,
    };
    call.length = random.within(20, 300) as u32;
    call.threshold = random.pick(&[u64::MAX, 6, 8]);
    call
}

/// Hits in up to three contigs, from `base` up to `span` beyond it.
fn drawn(random: &mut Random, mode: Mode, groups: &[u32], base: u32, span: u64) -> FinderCall {
    let count = groups.iter().sum::<u32>();
    let first_contig = random.pick(&[0, u32::MAX - 2]);
    let hit = |_| {
        let start = base.saturating_add(random.below(span) as u32);
        let end = match random.below(8) {
            0 => start.saturating_sub(random.below(2) as u32),
            _ => start.saturating_add(random.within(1, 1 + span / 3) as u32),
        };
        (first_contig + random.below(3) as u32, start, end)
    };
    let hits: Vec<Hit> = (0..count).map(hit).collect();
    let mut call = finder(mode, groups, &hits, 1, 0);
    call.room.keys += random.pick(&[0, 0, 3]);
    call.room.contigs += random.pick(&[0, 0, 1]);
    call.room.starts += random.pick(&[0, 0, 4]);
    call.room.ends += random.pick(&[0, 0, 2]);
    if mode == Mode::Interval {
        call.room.end_keys += random.pick(&[0, 0, 2]);
    }
    call
}

/// One less than the hits.
fn too_few(call: &FinderCall) -> usize {
    call.contigs.len().saturating_sub(1)
}

const FAULTS: &[Fault<FinderCall>] = &[
    |call, _| call.minimum = 0,
    |call, random| call.minimum = random.pick(&[1 << 31, u32::MAX]),
    |call, _| call.contigs.push(0),
    |call, _| call.starts.push(0),
    |call, _| call.groups.push(1),
    // In 32 bits these two would add nothing.
    |call, _| call.groups.extend([u32::MAX, 1]),
    |call, _| call.room.keys = too_few(call),
    |call, _| call.room.contigs = too_few(call),
    |call, _| call.room.starts = too_few(call),
    |call, _| call.room.ends = too_few(call),
];

const INTERVAL_FAULTS: &[Fault<FinderCall>] = &[
    |call, _| call.ends.push(0),
    |call, _| {
        call.ends.pop();
    },
    |call, _| call.room.end_keys = too_few(call),
];

/// What must be among the records.
pub fn kinds(mode: Mode) -> Vec<&'static str> {
    let own = match mode {
        Mode::Minimizer => MINIMIZER_KINDS,
        Mode::Interval => INTERVAL_KINDS,
    };
    [KINDS, own].concat()
}

const KINDS: &[&str] = &[
    "refused 1",
    "refused 2",
    "refused 3",
    "refused 8",
    "none listed",
    "one listed",
    "several listed",
    "several contigs listed",
    "a group dropped",
    "upper-half positions",
];

const MINIMIZER_KINDS: &[&str] = &["touching ranges apart"];

const INTERVAL_KINDS: &[&str] = &["an interval passed over"];

/// What an accepted finder and its ranges show, for the census.
pub fn shows(call: &FinderCall, ranges: &[Candidate]) -> Vec<&'static str> {
    let dropped = |&length: &u32| length > 0 && u64::from(length) >= call.threshold;
    let apart = |pair: &[Candidate]| pair[0].contig != pair[1].contig;
    let touching = |pair: &[Candidate]| !apart(pair) && pair[0].end + 1 == pair[1].start;
    let improper = |(start, end): (&u32, &u32)| start >= end;
    let high = |&start: &u32| start >> 31 == 1;
    those_that_hold(&[
        (ranges.is_empty(), "none listed"),
        (ranges.len() == 1, "one listed"),
        (ranges.len() > 1, "several listed"),
        (ranges.windows(2).any(apart), "several contigs listed"),
        (ranges.windows(2).any(touching), "touching ranges apart"),
        (call.groups.iter().any(dropped), "a group dropped"),
        (
            call.starts.iter().zip(&call.ends).any(improper),
            "an interval passed over",
        ),
        (call.starts.iter().any(high), "upper-half positions"),
    ])
}
