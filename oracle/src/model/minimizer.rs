//! The minimizer sweep: by 01's steps, and by scoring every admitted start. Sums are signed, so that a distance below 0
//! is simply that.

use super::score::{best, score, union, Scored};
use super::Starts;
use crate::call::{Best, Stats, SweepCall};

#[derive(Clone, Copy, Debug)]
struct Item {
    hash: u64,
    position: i64,
}

/// W = length − (window − 1) − (k-mer − 1).
fn windows_per_start(call: &SweepCall) -> i64 {
    i64::from(call.length) - (i64::from(call.window) - 1) - (i64::from(call.kmer) - 1)
}

/// Items with range start ≤ position < range end + length.
fn local_items(call: &SweepCall) -> Vec<Item> {
    let from = i64::from(call.range_start);
    let below = i64::from(call.range_end) + i64::from(call.length);
    let items = call.hashes.iter().zip(&call.starts);
    items
        .map(|(&hash, &position)| Item {
            hash,
            position: i64::from(position),
        })
        .filter(|item| from <= item.position && item.position < below)
        .collect()
}

fn score_items(call: &SweepCall, items: &[Item]) -> u32 {
    score(&call.query, &hashes(items))
}

fn hashes(items: &[Item]) -> Vec<u64> {
    items.iter().map(|item| item.hash).collect()
}

/// First item b, end item e (not included) and start p, from stop to stop.
pub fn by_steps(call: &SweepCall) -> (Option<Best>, Stats) {
    let w = windows_per_start(call);
    let items = local_items(call);
    if w < 1 || call.query.is_empty() || items.is_empty() {
        return (None, Stats::default());
    }
    let stops = scored_stops(call, &items, w);
    let stats = Stats {
        windows: stops.len() as u64,
        coords: union(&call.query, &hashes(&items)).len() as u32,
        items: items.len() as u32,
    };
    (best_above_zero(&stops), stats)
}

fn scored_stops(call: &SweepCall, items: &[Item], w: i64) -> Vec<Scored> {
    let mut stops = Vec::new();
    let mut b = 0;
    let mut p = items[0].position;
    let mut e = items.iter().filter(|i| i.position < p + w).count();
    while e < items.len() && p <= i64::from(call.range_end) {
        stops.push(Scored {
            shared: score_items(call, &items[b..e]),
            first: items[b].position,
            last: items[b].position,
        });
        let to_begin = (items[b + 1].position - p).max(0);
        let to_end = (items[e].position - w + 1 - p).max(0);
        let nearer = to_begin.min(to_end);
        if nearer == 0 {
            break;
        }
        b += usize::from(to_begin == nearer);
        e += usize::from(to_end == nearer);
        p += nearer;
    }
    stops
}

/// A best score of 0 is none.
fn best_above_zero(scored: &[Scored]) -> Option<Best> {
    best(scored).filter(|best| best.shared > 0)
}

/// Local positions strictly ascending, W and k at least 1.
pub fn in_premises(call: &SweepCall) -> bool {
    let items = local_items(call);
    let ascending = items
        .windows(2)
        .all(|two| two[0].position < two[1].position);
    ascending && windows_per_start(call) >= 1 && !call.query.is_empty()
}

/// All whole p from the first local position to range end with a local item at p + W or beyond.
pub fn admitted(call: &SweepCall) -> Starts {
    let items = local_items(call);
    match (items.first(), items.last()) {
        (Some(first), Some(last)) => Starts {
            from: first.position,
            to: i64::from(call.range_end).min(last.position - windows_per_start(call)),
        },
        _ => Starts { from: 0, to: -1 },
    }
}

/// Demand 3: every admitted start is scored for itself.
pub fn by_scoring(call: &SweepCall) -> Option<Best> {
    let items = local_items(call);
    let starts = admitted(call);
    let scored: Vec<Scored> = (starts.from..=starts.to)
        .map(|p| scored_start(call, &items, p))
        .collect();
    best_above_zero(&scored)
}

/// Active items run from the last one at or before p to the last one below p + W.
fn scored_start(call: &SweepCall, items: &[Item], p: i64) -> Scored {
    let below = p + windows_per_start(call);
    let begun = items.iter().filter(|i| i.position <= p).count();
    let end = items.iter().filter(|i| i.position < below).count();
    let active = &items[begun - 1..end];
    Scored {
        shared: score_items(call, active),
        first: active[0].position,
        last: active[0].position,
    }
}
