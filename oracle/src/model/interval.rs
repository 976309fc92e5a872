//! The interval sweep: by 01's steps (spans between events), and by scoring every position.

use std::collections::BTreeMap;

use super::score::{best, score, union, Scored};
use super::Starts;
use crate::call::{Best, Stats, SweepCall};

/// [start, end)
#[derive(Clone, Copy, Debug)]
struct Interval {
    hash: u64,
    start: i64,
    end: i64,
}

/// Ordered as the paper wants: by position, and at one position deletes before inserts.
#[derive(Clone, Copy, Debug, PartialEq, Eq, PartialOrd, Ord)]
struct Event {
    position: i64,
    insert: bool,
    hash: u64,
}

/// Start ≥ range start − K (not below 0), start ≤ range end, end > range start; K = length − k-mer + 1.
fn taken(call: &SweepCall) -> Vec<Interval> {
    let k = i64::from(call.length) - i64::from(call.kmer) + 1;
    let range_start = i64::from(call.range_start);
    let least = (range_start - k).max(0);
    let items = call.hashes.iter().zip(&call.starts).zip(&call.ends);
    items
        .map(|((&hash, &start), &end)| Interval {
            hash,
            start: i64::from(start),
            end: i64::from(end),
        })
        .filter(|i| i.start >= least && i.start <= i64::from(call.range_end))
        .filter(|i| i.end > range_start)
        .collect()
}

/// Length < k-mer, no query hash, a reversed range, or nothing taken.
fn is_early_none(call: &SweepCall) -> bool {
    call.length < call.kmer
        || call.query.is_empty()
        || call.range_end < call.range_start
        || taken(call).is_empty()
}

pub fn by_steps(call: &SweepCall) -> (Option<Best>, Stats) {
    if is_early_none(call) {
        return (None, Stats::default());
    }
    let taken = taken(call);
    let hashes: Vec<u64> = taken.iter().map(|i| i.hash).collect();
    let stats = Stats {
        windows: u64::from(call.range_end) - u64::from(call.range_start) + 1,
        coords: union(&call.query, &hashes).len() as u32,
        items: taken.len() as u32,
    };
    (best(&scored_spans(call, &taken)), stats)
}

/// Later starts, and ends after range start, are events if ≤ range end.
fn events(call: &SweepCall, taken: &[Interval]) -> Vec<Event> {
    let is_event = |p: i64| i64::from(call.range_start) < p && p <= i64::from(call.range_end);
    let mut events = Vec::new();
    for interval in taken {
        for (position, insert) in [(interval.start, true), (interval.end, false)] {
            if is_event(position) {
                events.push(Event {
                    position,
                    insert,
                    hash: interval.hash,
                });
            }
        }
    }
    events.sort();
    events
}

/// One score for each span between events, the first from range start, the last to range end.
fn scored_spans(call: &SweepCall, taken: &[Interval]) -> Vec<Scored> {
    let mut counts: BTreeMap<u64, u32> = BTreeMap::new();
    for interval in taken {
        if interval.start <= i64::from(call.range_start) {
            *counts.entry(interval.hash).or_default() += 1;
        }
    }
    let mut scored = Vec::new();
    let mut from = i64::from(call.range_start);
    for at_one_position in events(call, taken).chunk_by(|a, b| a.position == b.position) {
        let position = at_one_position[0].position;
        scored.push(scored_span(call, &counts, from, position - 1));
        for event in at_one_position {
            apply(&mut counts, event);
        }
        from = position;
    }
    scored.push(scored_span(call, &counts, from, i64::from(call.range_end)));
    scored
}

/// As in a script: deleting at count 0 does nothing. Only counts above 0 are kept.
fn apply(counts: &mut BTreeMap<u64, u32>, event: &Event) {
    let count = counts.get(&event.hash).copied().unwrap_or(0);
    match (event.insert, count) {
        (true, _) => counts.insert(event.hash, count + 1),
        (false, 0 | 1) => counts.remove(&event.hash),
        (false, _) => counts.insert(event.hash, count - 1),
    };
}

fn scored_span(call: &SweepCall, counts: &BTreeMap<u64, u32>, first: i64, last: i64) -> Scored {
    let active: Vec<u64> = counts.keys().copied().collect();
    Scored {
        shared: score(&call.query, &active),
        first,
        last,
    }
}

/// None of the nones holds, and no taken interval is empty or reversed (example G is outside).
pub fn in_premises(call: &SweepCall) -> bool {
    !is_early_none(call) && taken(call).iter().all(|i| i.start < i.end)
}

pub fn positions(call: &SweepCall) -> Starts {
    Starts {
        from: i64::from(call.range_start),
        to: i64::from(call.range_end),
    }
}

/// Demand 3: every p from range start to range end, active being the taken intervals with start ≤ p < end.
pub fn by_scoring(call: &SweepCall) -> Option<Best> {
    let taken = taken(call);
    let positions = positions(call);
    let scored: Vec<Scored> = (positions.from..=positions.to)
        .map(|p| scored_position(call, &taken, p))
        .collect();
    best(&scored)
}

fn scored_position(call: &SweepCall, taken: &[Interval], p: i64) -> Scored {
    let covering = taken.iter().filter(|i| i.start <= p && p < i.end);
    let active: Vec<u64> = covering.map(|i| i.hash).collect();
    Scored {
        shared: score(&call.query, &active),
        first: p,
        last: p,
    }
}
