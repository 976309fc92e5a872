//! Sweeps to time: drawn like real ones, or from a folder of jobs; and both sides' calls on them.

use std::hint::black_box;
use std::path::Path;

use kelonbaro::{IntervalSweep, MinimizerSweep, Range, Settings, SweepNeeds, SweepWork};
use oracle::call::{Mode, SweepAnswer, SweepCall};
use oracle::case::same_sweep;
use oracle::folder;
use oracle::model::job::read;
use oracle::model::needs;
use oracle::original::PreparedSweep;
use oracle::random::Random;

use crate::timing::{duel, seconds, Times};

const KMER: u32 = 16;
const WINDOW: u32 = 24;

/// Minimizers of a window of 24 lie 12.5 bases apart.
const GAPS: u64 = 24;

/// Intervals of a bottom sketch start as often as they end: a fragment of K k-mers, s of them sketched, has one start in K/2s bases.
const START_GAPS: u64 = 11;

/// A drawn sweep. Its items are all taken; in one place of the range six of ten query hashes are found again. Hashes are `bits` wide.
pub fn drawn(mode: Mode, query: usize, items: usize, bits: u32, random: &mut Random) -> SweepCall {
    let mut hashes = distinct(query, bits, random);
    let shared: Vec<u64> = hashes.iter().copied().filter(|_| random.below(10) < 6).collect();
    hashes.sort_unstable();
    let table: Vec<f64> = (0..=query).map(|shared| 80.0 + 20.0 * shared as f64 / query as f64).collect();
    let mut call = SweepCall {
        mode,
        kmer: KMER,
        window: WINDOW,
        length: 0,
        range_start: 0,
        range_end: 0,
        hashes: (0..items).map(|_| hash(bits, random)).collect(),
        starts: vec![],
        ends: vec![],
        identities: table.clone(),
        uppers: table,
        minimum: 80.0,
        room: needs::sweep(mode, query, items),
        query: hashes,
    };
    match mode {
        Mode::Minimizer => place_minimizers(&mut call, random),
        Mode::Interval => place_intervals(&mut call, random),
    }
    let at = random.below((items - shared.len()) as u64 + 1) as usize;
    call.hashes[at..at + shared.len()].copy_from_slice(&shared);
    call
}

fn hash(bits: u32, random: &mut Random) -> u64 {
    random.next() >> (64 - bits)
}

/// So many different hashes, in no order.
fn distinct(count: usize, bits: u32, random: &mut Random) -> Vec<u64> {
    let mut seen = std::collections::HashSet::new();
    let mut hashes = vec![];
    while hashes.len() < count {
        let hash = hash(bits, random);
        if seen.insert(hash) {
            hashes.push(hash);
        }
    }
    hashes
}

/// The fragment is as long as the query's hashes lie at these gaps, and the range ends where it covers the last item.
fn place_minimizers(call: &mut SweepCall, random: &mut Random) {
    let mut at = 1_000_000;
    for _ in 0..call.hashes.len() {
        call.starts.push(at as u32);
        at += random.within(1, GAPS);
    }
    call.length = (call.query.len() as u64 * (GAPS + 1) / 2) as u32;
    call.range_start = call.starts[0];
    call.range_end = call.range_start.max((at as u32).saturating_sub(call.length));
}

/// At each position about as many intervals are active as the query has hashes. Those that would end before the range are not made.
fn place_intervals(call: &mut SweepCall, random: &mut Random) {
    let kmers = call.query.len() as u64 * (START_GAPS + 1);
    call.length = kmers as u32 + KMER - 1;
    let mut at = 1_000_000;
    call.range_start = (at + kmers) as u32;
    while call.starts.len() < call.hashes.len() {
        let end = at + random.within(1, kmers);
        if end > u64::from(call.range_start) {
            call.starts.push(at as u32);
            call.ends.push(end as u32);
        }
        at += random.within(1, START_GAPS);
    }
    call.range_end = call.range_start.max(at as u32);
}

/// The real jobs of a folder, for one sweep: those whose name is a number, or begins with `real`.
pub fn real(mode: Mode, folder: &Path) -> Vec<SweepCall> {
    let jobs = folder::jobs(folder).expect("a folder of jobs");
    let named = |name: &str| name.starts_with("real") || name.parse::<u64>().is_ok();
    let calls = jobs.iter().filter(|job| named(&job.name)).map(|job| read(&job.bytes).expect("a whole job").sweep());
    calls.filter(|call| call.mode == mode).collect()
}

/// Memory for any sweep of a pool, lent to all of them in turn.
pub struct Memory {
    hashes: Vec<u64>,
    counts: Vec<u32>,
    coords: Vec<u32>,
    words: Vec<u64>,
    summary: Vec<u64>,
    events: Vec<u64>,
}

impl Memory {
    pub fn new(pool: &[SweepCall]) -> Self {
        let most = |of: fn(SweepNeeds) -> usize| pool.iter().map(|call| of(SweepNeeds::of(call.query.len(), call.hashes.len()))).max().unwrap_or(0);
        Memory {
            hashes: vec![0; most(|needs| needs.hashes)],
            counts: vec![0; most(|needs| needs.counts)],
            coords: vec![0; most(|needs| needs.coords)],
            words: vec![0; most(|needs| needs.words)],
            summary: vec![0; most(|needs| needs.summary)],
            events: vec![0; most(|needs| needs.events)],
        }
    }
}

type Answer = Result<kelonbaro::SweepAnswer, kelonbaro::Refusal>;

#[inline(never)]
fn proved(call: &SweepCall, memory: &mut Memory) -> Answer {
    let settings = Settings { kmer: call.kmer, length: call.length };
    let range = Range { start: call.range_start, end: call.range_end };
    let mut work = SweepWork {
        hashes: &mut memory.hashes,
        counts: &mut memory.counts,
        coords: &mut memory.coords,
        words: &mut memory.words,
        summary: &mut memory.summary,
    };
    match call.mode {
        Mode::Minimizer => kelonbaro::minimizer_sweep(
            MinimizerSweep {
                settings,
                window: call.window,
                range,
                query: &call.query,
                hashes: &call.hashes,
                positions: &call.starts,
                identities: &call.identities,
                uppers: &call.uppers,
                minimum: call.minimum,
            },
            &mut work,
        ),
        Mode::Interval => kelonbaro::interval_sweep(
            IntervalSweep {
                settings,
                range,
                query: &call.query,
                hashes: &call.hashes,
                starts: &call.starts,
                ends: &call.ends,
                identities: &call.identities,
                uppers: &call.uppers,
                minimum: call.minimum,
            },
            &mut work,
            &mut memory.events,
        ),
    }
}

#[inline(never)]
fn original(call: &PreparedSweep) -> SweepAnswer {
    call.answer()
}

/// Whether the proved answer is the original's, the estimate by its bits.
fn same(proved: &Answer, original: &SweepAnswer) -> bool {
    let Ok(answer) = proved else { return false };
    let stats = oracle::call::Stats { windows: answer.stats.windows, coords: answer.stats.coords, items: answer.stats.items };
    let told = match answer.place {
        None => SweepAnswer::Nothing(stats),
        Some(place) => {
            let (start, end, shared, size) = (place.start, place.end, place.shared, place.size);
            let (identity, upper) = (place.estimate.identity, place.estimate.upper);
            SweepAnswer::Placed(oracle::call::Place { start, end, shared, size, identity, upper }, stats)
        }
    };
    same_sweep(&told, original)
}

/// Both sides over a whole pool, after their answers were held to each other. Seconds are those of one call.
pub fn time(rounds: usize, pool: &[SweepCall]) -> Times {
    let prepared: Vec<PreparedSweep> = pool.iter().map(PreparedSweep::new).collect();
    let mut memory = Memory::new(pool);
    for (call, theirs) in pool.iter().zip(&prepared) {
        assert!(same(&proved(call, &mut memory), &original(theirs)), "the sides differ");
    }
    let old = || {
        seconds(|| {
            for call in &prepared {
                black_box(original(black_box(call)));
            }
        })
    };
    let new = || {
        seconds(|| {
            for call in pool {
                black_box(proved(black_box(call), &mut memory)).expect("answered before");
            }
        })
    };
    let times = duel(rounds, old, new);
    let each = 1.0 / pool.len() as f64;
    Times { original: times.original * each, proved: times.proved * each, ratio: times.ratio }
}

/// As many different inputs as give some 200,000 items, at least 4.
pub fn pool(mode: Mode, query: usize, items: usize, bits: u32) -> Vec<SweepCall> {
    let mut random = Random::new(1 + items as u64 + u64::from(bits));
    (0..(200_000 / items).max(4)).map(|_| drawn(mode, query, items, bits, &mut random)).collect()
}

/// The table of one sweep: sizes with hashes of 32 bits, as TurboANI's are, and of 64; then the real jobs of a folder.
#[allow(dead_code)]
pub fn table(mode: Mode, rounds: usize, sizes: &[(usize, usize)], folder: &Path) {
    println!("| query | items | hash bits | original, µs | proved, µs | ratio |");
    println!("|---|---|---|---|---|---|");
    for &(query, items) in sizes {
        for bits in [32, 64] {
            let times = time(rounds, &pool(mode, query, items, bits));
            println!("| {query} | {items} | {bits} | {:.1} | {:.1} | {:.2} |", times.original * 1e6, times.proved * 1e6, times.ratio);
        }
    }
    let real = real(mode, folder);
    if !real.is_empty() {
        let times = time(rounds, &real);
        println!("| {} real jobs | | 32 | {:.1} | {:.1} | {:.2} |", real.len(), times.original * 1e6, times.proved * 1e6, times.ratio);
    }
}
