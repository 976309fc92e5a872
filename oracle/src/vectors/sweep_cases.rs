//! Sweeps of both modes: drawn ones, each fault in them, and those at the edges.

use super::draw::{
    ascending, index, repeat_neighbour, sized, some_of, spoilt, swap_neighbours, those_that_hold,
    Fault,
};
use crate::call::{Best, Mode, SweepAnswer, SweepCall};
use crate::model::{self, needs};
use crate::random::Random;

pub fn cases(random: &mut Random, mode: Mode) -> Vec<SweepCall> {
    let mut cases = match mode {
        Mode::Minimizer => minimizer_edges(),
        Mode::Interval => interval_edges(),
    };
    cases.extend([full_query(mode), query_too_long(mode)]);
    cases.extend(odd_estimates(mode));
    cases.extend(two_words(mode));
    cases.extend((0..240).map(|_| small(random, mode)));
    cases.extend(spoilt(random, |random| rich(random, mode), FAULTS, 5));
    let own = match mode {
        Mode::Minimizer => MINIMIZER_FAULTS,
        Mode::Interval => INTERVAL_FAULTS,
    };
    cases.extend(spoilt(random, |random| rich(random, mode), own, 5));
    cases.extend((0..6).map(|_| medium(random, mode)));
    cases
}

/// k-mer, window, length, range start, range end.
type Settings = [u32; 5];

/// Hash, start, end; a minimizer has no end.
type Item = (u64, u32, u32);

/// A sweep with the estimates 0, 50, 100 and exactly the room it needs.
fn sweep(mode: Mode, settings: Settings, query: &[u64], items: &[Item]) -> SweepCall {
    let [kmer, window, length, range_start, range_end] = settings;
    let ends = items.iter().map(|item| item.2);
    SweepCall {
        mode,
        kmer,
        window,
        length,
        range_start,
        range_end,
        query: query.to_vec(),
        hashes: items.iter().map(|item| item.0).collect(),
        starts: items.iter().map(|item| item.1).collect(),
        ends: ends.filter(|_| mode == Mode::Interval).collect(),
        identities: vec![0.0, 50.0, 100.0],
        uppers: vec![0.0, 50.0, 100.0],
        minimum: 0.0,
        room: needs::sweep(mode, query.len(), items.len()),
    }
}

fn minimizer_edges() -> Vec<SweepCall> {
    let items = [(20, 0, 0), (30, 4, 0), (40, 8, 0), (20, 12, 0), (50, 20, 0)];
    let make = |settings, items: &[Item]| sweep(Mode::Minimizer, settings, &[20, 40], items);
    vec![
        make([3, 2, 10, 0, 11], &[]),
        make([3, 2, 3, 0, 11], &items),
        make([u32::MAX, u32::MAX, u32::MAX, 0, 11], &items),
        make([3, 2, 10, 21, 30], &items),
        make([3, 2, 10, 11, 0], &items),
        make([1, 1, u32::MAX, 0, u32::MAX], &items),
    ]
}

fn interval_edges() -> Vec<SweepCall> {
    let make = |settings, items: &[Item]| sweep(Mode::Interval, settings, &[20, 40], items);
    let widest = [1, 0, u32::MAX, 0, u32::MAX];
    let last = u32::MAX;
    vec![
        make([3, 0, 10, 3, 9], &[]),
        make([3, 0, 2, 3, 9], &[(20, 5, 9)]),
        make([3, 0, 10, 9, 3], &[(20, 5, 9)]),
        make(widest, &[(20, 0, last), (40, 7, 9)]),
        make([3, 0, 3, last, last], &[(20, last - 1, last)]),
    ]
}

/// 4,096 query hashes are not too many: the short table is what is wrong.
fn full_query(mode: Mode) -> SweepCall {
    let query: Vec<u64> = (0..4_096).collect();
    sweep(mode, [3, 2, 10, 0, 11], &query, &[])
}

/// One hash more, and a k-mer size of 0: 1 comes before 2.
fn query_too_long(mode: Mode) -> SweepCall {
    let query: Vec<u64> = (0..4_097).collect();
    sweep(mode, [0, 2, 10, 0, 11], &query, &[])
}

/// 65 hashes in all take two bit words: both lent, and one fewer.
fn two_words(mode: Mode) -> [SweepCall; 2] {
    let items: Vec<Item> = (0..63).map(|i| (u64::from(i), i, i + 3)).collect();
    let enough = sweep(mode, [3, 2, 10, 0, 40], &[20, 40], &items);
    let mut short = enough.clone();
    short.room.words = 1;
    [enough, short]
}

/// With two query hashes and two items or more.
fn rich(random: &mut Random, mode: Mode) -> SweepCall {
    loop {
        let call = small(random, mode);
        if call.query.len() >= 2 && call.starts.len() >= 2 {
            return call;
        }
    }
}

pub fn small(random: &mut Random, mode: Mode) -> SweepCall {
    let count = sized(random, 2, 8);
    let alphabet = ascending(random, count);
    let query = some_of(random, &alphabet, 2);
    let base = random.pick(&[0, 0, 5, 900, u32::MAX - 60, u32::MAX - 8]);
    let count = sized(random, 0, 20);
    let items = items(random, &alphabet, count, base, &[0, 1, 1, 2, 2, 3, 4]);
    let kmer = random.pick(&[1, 2, 3]);
    let window = random.pick(&[1, 2, 3]);
    let length = random.pick(&[0, 2, 3, 4, 5, 6, 8, 10, 12, u32::MAX]);
    let (from, to) = range(random, base);
    let settings = [kmer, window, length, from, to];
    finished(random, sweep(mode, settings, &query, &items))
}

/// A range near the items, now and then reversed or up to the last position.
fn range(random: &mut Random, base: u32) -> (u32, u32) {
    let from = base.saturating_add(random.below(12) as u32);
    let from = from.saturating_sub(4);
    let to = match random.below(10) {
        0 => from.saturating_sub(2),
        1 => u32::MAX,
        _ => from.saturating_add(random.below(18) as u32),
    };
    (from, to)
}

/// As real ones are: a few hundred hashes, of which the reference has many.
pub fn medium(random: &mut Random, mode: Mode) -> SweepCall {
    let alphabet = ascending(random, 500);
    let query = some_of(random, &alphabet, 4);
    let items = items(random, &alphabet, 400, 1_000, &[1, 2, 5, 9, 14]);
    let from = 900 + random.below(900) as u32;
    let settings = [16, 24, 600, from, from + 1_500];
    finished(random, sweep(mode, settings, &query, &items))
}

/// As large as the mapping program takes: 512 query hashes and 2,048 items.
pub fn limit(random: &mut Random, mode: Mode) -> SweepCall {
    let alphabet = ascending(random, 1_200);
    let mut query = alphabet.clone();
    while query.len() > 512 {
        query.remove(index(random, query.len()));
    }
    let items = items(random, &alphabet, 2_048, 1_000, &[0, 1, 2, 5, 9, 14]);
    let from = 900 + random.below(8_000) as u32;
    let to = from + random.pick(&[300, 3_000, 12_000]);
    let length = random.pick(&[600, 3_000]);
    finished(
        random,
        sweep(mode, [16, 24, length, from, to], &query, &items),
    )
}

/// Items at ascending starts; some intervals are empty or reversed.
fn items(
    random: &mut Random,
    alphabet: &[u64],
    count: usize,
    base: u32,
    steps: &[u32],
) -> Vec<Item> {
    let mut start = base;
    let mut items = Vec::new();
    for _ in 0..count {
        start = start.saturating_add(random.pick(steps));
        let end = match random.below(12) {
            0 => start.saturating_sub(1),
            1 => start,
            _ => start.saturating_add(random.within(1, 9) as u32),
        };
        items.push((random.pick(alphabet), start, end));
    }
    items
}

const ODD_FLOATS: &[f64] = &[
    f64::NAN,
    f64::INFINITY,
    f64::NEG_INFINITY,
    -0.0,
    5e-324,
    f64::MAX,
];

/// A sweep whose best is 2 in minimizer mode and 1 in interval mode, with each odd float as identity, as upper bound
/// under a minimum identity of 60, and as minimum identity.
fn odd_estimates(mode: Mode) -> Vec<SweepCall> {
    let items = [
        (20, 0, 6),
        (30, 4, 9),
        (40, 8, 11),
        (20, 12, 13),
        (50, 20, 22),
    ];
    let plain = sweep(mode, [3, 2, 10, 0, 11], &[20, 40], &items);
    let mut calls = Vec::new();
    for &odd in ODD_FLOATS {
        let mut call = plain.clone();
        call.identities = vec![odd; 3];
        calls.push(call);
        let mut call = plain.clone();
        call.uppers = vec![odd; 3];
        call.minimum = 60.0;
        calls.push(call);
        let mut call = plain.clone();
        call.minimum = odd;
        calls.push(call);
    }
    calls
}

/// With a table of k + 1 entries or a few more, some of them odd, a minimum identity that may reject, and room to spare
/// now and then.
fn finished(random: &mut Random, mut call: SweepCall) -> SweepCall {
    let k = call.query.len();
    let rows = k + 1 + random.pick(&[0, 0, 2]);
    for list in [&mut call.identities, &mut call.uppers] {
        *list = (0..rows)
            .map(|i| match random.once_in(10) {
                true => random.pick(ODD_FLOATS),
                false => 100.0 * i as f64 / (k + 1) as f64,
            })
            .collect();
    }
    call.minimum = match random.below(12) {
        0 => random.pick(ODD_FLOATS),
        1..=3 => 40.0,
        4 => 102.5,
        _ => 0.0,
    };
    call.room.hashes += random.pick(&[0, 0, 3]);
    call.room.counts += random.pick(&[0, 0, 4]);
    call.room.items += random.pick(&[0, 0, 2]);
    call.room.words += random.pick(&[0, 0, 1]);
    call.room.summary += random.pick(&[0, 0, 2]);
    if call.mode == Mode::Interval {
        call.room.events += random.pick(&[0, 0, 5]);
    }
    call
}

/// One less than m.
fn too_few(call: &SweepCall) -> usize {
    (call.query.len() + call.hashes.len()).saturating_sub(1)
}

const FAULTS: &[Fault<SweepCall>] = &[
    |call, _| call.kmer = 0,
    |call, _| call.hashes.push(7),
    |call, _| call.starts.push(u32::MAX),
    |call, _| call.identities.push(100.0),
    |call, _| call.uppers.push(100.0),
    |call, random| swap_neighbours(random, &mut call.query),
    |call, random| repeat_neighbour(random, &mut call.query),
    |call, random| swap_neighbours(random, &mut call.starts),
    |call, random| {
        let rows = index(random, call.query.len() + 1);
        call.identities.truncate(rows);
        call.uppers.truncate(rows);
    },
    |call, _| call.room.hashes = too_few(call),
    |call, _| call.room.counts = too_few(call),
    |call, _| call.room.items = too_few(call),
    |call, _| call.room.words = 0,
    |call, _| call.room.summary = 0,
];

const MINIMIZER_FAULTS: &[Fault<SweepCall>] = &[|call, _| call.window = 0];

const INTERVAL_FAULTS: &[Fault<SweepCall>] = &[
    |call, _| call.ends.push(9),
    |call, _| {
        call.ends.pop();
    },
    |call, _| call.room.events = (2 * call.hashes.len()).saturating_sub(1),
];

/// What must be among the records.
pub fn kinds(mode: Mode) -> Vec<&'static str> {
    let own = match mode {
        Mode::Minimizer => MINIMIZER_KINDS,
        Mode::Interval => INTERVAL_KINDS,
    };
    [KINDS, own].concat()
}

const KINDS: &[&str] = &[
    "refused 1",
    "refused 2",
    "refused 3",
    "refused 4",
    "refused 5",
    "refused 4 above place 1",
    "refused 5 above place 1",
    "refused 7",
    "refused 8",
    "early none: no query hash",
    "early none: too short",
    "early none: no item taken",
    "none: below the minimum",
    "placed",
    "placed: tie",
    "placed: identity NaN",
    "placed: upper bound NaN under a minimum",
    "placed: minimum NaN",
    "placed: infinite estimate",
    "placed: end past 2^32",
    "upper-half hashes",
    "inside demand 3",
    "outside demand 3",
];

const MINIMIZER_KINDS: &[&str] = &["none: no window scored", "none: nothing shared"];

const INTERVAL_KINDS: &[&str] = &[
    "early none: reversed range",
    "placed: zero wins",
    "2^32 windows",
];

/// What an accepted sweep and its answer show, for the census.
pub fn shows(call: &SweepCall, answer: &SweepAnswer) -> Vec<&'static str> {
    let (best, stats) = model::by_steps(call);
    let early = stats.coords == 0;
    let unasked = call.query.is_empty();
    let reversed = call.mode == Mode::Interval && call.range_end < call.range_start;
    let untaken = early && !unasked && !reversed && !too_short(call);
    let upper_half = |&hash: &u64| hash >> 63 == 1;
    let mut kinds = those_that_hold(&[
        (early && unasked, "early none: no query hash"),
        (early && too_short(call), "early none: too short"),
        (early && reversed, "early none: reversed range"),
        (untaken, "early none: no item taken"),
        (!early && stats.windows == 0, "none: no window scored"),
        (stats.windows > 0 && best.is_none(), "none: nothing shared"),
        (call.query.iter().any(upper_half), "upper-half hashes"),
        (stats.windows > u64::from(u32::MAX), "2^32 windows"),
        (model::in_premises(call), "inside demand 3"),
        (!early && !model::in_premises(call), "outside demand 3"),
    ]);
    if let Some(best) = best {
        kinds.extend(shows_best(call, best, answer));
    }
    kinds
}

fn shows_best(call: &SweepCall, best: Best, answer: &SweepAnswer) -> Vec<&'static str> {
    let SweepAnswer::Placed(place, _) = answer else {
        return vec!["none: below the minimum"];
    };
    let infinite = place.identity.is_infinite() || place.upper.is_infinite();
    let unjudged = place.upper.is_nan() && call.minimum > 0.0;
    those_that_hold(&[
        (true, "placed"),
        (best.first < best.last, "placed: tie"),
        (best.shared == 0, "placed: zero wins"),
        (place.identity.is_nan(), "placed: identity NaN"),
        (unjudged, "placed: upper bound NaN under a minimum"),
        (call.minimum.is_nan(), "placed: minimum NaN"),
        (infinite, "placed: infinite estimate"),
        (place.end >> 32 > 0, "placed: end past 2^32"),
    ])
}

fn too_short(call: &SweepCall) -> bool {
    let [length, kmer, window] = [call.length, call.kmer, call.window].map(i64::from);
    match call.mode {
        Mode::Minimizer => length - (window - 1) - (kmer - 1) < 1,
        Mode::Interval => length < kmer,
    }
}
