//! Both sweeps.

use super::{alphabet, length, positions, some_of, spare, Size};
use crate::call::{Mode, SweepCall, SweepRoom};
use crate::model::needs;
use crate::model::refusals::{MOST_ITEMS, MOST_QUERY};
use crate::random::Random;

/// Estimates and minima with all that f64 has: infinities, both zeros, NaNs quiet and signalling, with payload.
const ODD: [f64; 11] = [
    f64::NAN,
    f64::from_bits(0xfff8_0000_dead_beef),
    f64::from_bits(0x7ff0_0000_0000_0001),
    f64::INFINITY,
    f64::NEG_INFINITY,
    0.0,
    -0.0,
    f64::MIN_POSITIVE,
    50.0,
    75.5,
    100.0,
];

struct Shape {
    alphabet: u64,
    query: usize,
    items: usize,
    /// The widest gap between neighbours, and about how long intervals and fragments are.
    widest: u64,
}

pub fn sweep(random: &mut Random, size: Size, mode: Mode) -> SweepCall {
    let shape = shape(random, size);
    let letters = alphabet(random, shape.alphabet);
    let query = some_of(random, &letters, shape.query);
    let starts = positions(random, shape.items, shape.widest);
    let hashes = hashes(random, &letters, &query, shape.items);
    let ends = match mode {
        Mode::Minimizer => Vec::new(),
        Mode::Interval => ends(random, &starts, shape.widest),
    };
    let (identities, uppers) = table(random, query.len());
    let mut call = SweepCall {
        mode,
        kmer: short(random),
        window: short(random),
        length: length(random, 2 * shape.widest),
        range_start: 0,
        range_end: 0,
        room: room(random, mode, query.len(), hashes.len()),
        query,
        hashes,
        starts,
        ends,
        identities,
        uppers,
        minimum: minimum(random),
    };
    fit_length(random, &mut call);
    set_range(random, &mut call);
    if size == Size::Limit {
        bound_stops(random, &mut call);
    }
    call
}

fn shape(random: &mut Random, size: Size) -> Shape {
    match size {
        Size::Small => Shape {
            alphabet: random.within(1, 7),
            query: random.pick(&[0, 1, 1, 2, 2, 3, 3, 4, 5]),
            items: random.pick(&[0, 1, 2, 3, 4, 5, 6, 7, 8, 10, 12]),
            widest: 8,
        },
        Size::Medium => Shape {
            alphabet: random.pick(&[10, 100, 1_000]),
            query: random.within(1, 64) as usize,
            items: random.below(400) as usize,
            widest: 30,
        },
        Size::Limit => Shape {
            alphabet: random.pick(&[10_000, 100_000]),
            query: random.pick(&[4, 32, MOST_QUERY, MOST_QUERY]),
            items: random.pick(&[MOST_ITEMS, MOST_ITEMS - 1, 30_000]),
            widest: 60,
        },
    }
}

/// Every other item has a query hash, so that something is shared.
fn hashes(random: &mut Random, letters: &[u64], query: &[u64], items: usize) -> Vec<u64> {
    let hash = |_| match !query.is_empty() && random.once_in(2) {
        true => random.pick(query),
        false => random.pick(letters),
    };
    (0..items).map(hash).collect()
}

/// K-mer and window sizes: small, now and then as large as they go.
fn short(random: &mut Random) -> u32 {
    match random.below(30) {
        0 => u32::MAX,
        1 => 20,
        _ => random.within(1, 3) as u32,
    }
}

/// Often the length leaves but few starts, so that the sweep has somewhere to go; or just one, or none.
fn fit_length(random: &mut Random, call: &mut SweepCall) {
    let other = match call.mode {
        Mode::Minimizer => call.window - 1,
        Mode::Interval => 0,
    };
    let least = call.kmer.saturating_add(other);
    match random.below(16) {
        0 => call.length = least,
        1 => call.length = least - 1,
        2..=9 => call.length = least.saturating_add(random.below(8) as u32),
        _ => (),
    }
}

/// In half of the cases all intervals are proper, as demand 3 wants them; else some end at or before their start.
fn ends(random: &mut Random, starts: &[u32], widest: u64) -> Vec<u32> {
    let proper = random.once_in(2);
    let last = u64::from(starts.last().copied().unwrap_or(0));
    let end = |&start: &u32| {
        let start = u64::from(start);
        let end = match random.below(if proper { 8 } else { 12 }) {
            0 => u64::from(u32::MAX),
            1..=7 => start + random.within(1, widest),
            8 | 9 => start,
            10 => start.saturating_sub(random.below(4)),
            _ => random.within(0, last),
        };
        end.min(u64::from(u32::MAX)) as u32
    };
    starts.iter().map(end).collect()
}

/// A range about the items: in order, reversed, or open to either end of u32.
fn set_range(random: &mut Random, call: &mut SweepCall) {
    let low = call.starts.first().copied().unwrap_or(0).saturating_sub(4);
    let high = call.starts.last().copied().unwrap_or(9).saturating_add(4);
    let mut bound = || random.within(u64::from(low), u64::from(high)) as u32;
    let (a, b) = (bound(), bound());
    (call.range_start, call.range_end) = match random.below(16) {
        0 | 1 => (a.max(b), a.min(b)),
        2 => (0, u32::MAX),
        3 => (a, u32::MAX),
        4 => (0, b),
        5..=7 => (low, high),
        _ => (a.min(b), a.max(b)),
    };
}

/// Scoring afresh at each stop costs as many hashes as are active, so a wide query sweeps over a short range. In the
/// minimizer sweep a wide window then keeps all items local while few are active at once.
fn bound_stops(random: &mut Random, call: &mut SweepCall) {
    let low = call.starts.first().copied().unwrap_or(0);
    let high = call.starts.last().copied().unwrap_or(0);
    let active = random.within(200, 2_000) as u32;
    (call.kmer, call.range_start) = (16, low);
    if call.query.len() < 100 {
        (call.window, call.length, call.range_end) = (24, active, high);
        return;
    }
    call.range_end = low.saturating_add(random.within(500, 2_000) as u32);
    match call.mode {
        Mode::Minimizer => {
            call.length = (high - low).saturating_add(100).max(active + 100);
            call.window = call.length - active;
        }
        Mode::Interval => call.length = active,
    }
}

/// At least k + 1 estimates, ascending as real ones are, or anything at all.
fn table(random: &mut Random, query: usize) -> (Vec<f64>, Vec<f64>) {
    let entries = query + 1 + spare(random);
    if random.once_in(2) {
        let identity = |i: usize| 100.0 * i as f64 / entries as f64;
        let identities: Vec<f64> = (0..entries).map(identity).collect();
        let uppers = identities.iter().map(|i| (i + 5.0).min(100.0)).collect();
        return (identities, uppers);
    }
    let mut odd = || (0..entries).map(|_| random.pick(&ODD)).collect();
    (odd(), odd())
}

fn minimum(random: &mut Random) -> f64 {
    match random.below(3) {
        0 => random.pick(&ODD),
        1 => random.pick(&[20.0, 40.0, 60.0, 80.0]),
        _ => 0.0,
    }
}

fn room(random: &mut Random, mode: Mode, query: usize, items: usize) -> SweepRoom {
    let need = needs::sweep(mode, query, items);
    SweepRoom {
        hashes: need.hashes + spare(random),
        counts: need.counts + spare(random),
        items: need.items + spare(random),
        words: need.words + spare(random),
        summary: need.summary + spare(random),
        events: need.events + spare(random),
    }
}
