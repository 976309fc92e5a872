//! Both finders against the original's two functions, without its hash lookup and its estimate of the minimum:
//! `bench/run finders [ROUNDS] [FOLDER]`, FOLDER holding a `finders.txt` with real cases.
//!
//! Timed as the sweeps are (see minimizer.rs). The original's groups of hits are looked up by their number, which costs an index.

#[path = "../timing.rs"]
mod timing;

use std::hint::black_box;
use std::path::PathBuf;

use kelonbaro::{Candidates, IntervalFinder, MinimizerFinder};
use oracle::call::{Candidate, FinderAnswer, FinderCall, Mode};
use oracle::folder;
use oracle::model::needs;
use oracle::original::{FoundByOriginal, PreparedFinder};
use oracle::random::Random;
use timing::{duel, seconds, Times};

const LENGTH: u64 = 3_000;
const CONTIGS: u64 = 50;
const CONTIG: u64 = 100_000;

/// So many hits in groups of about the same length, each group in the order of an index, by contig and position. Every other group has one
/// hit in the stretch that the fragment comes from.
fn drawn(mode: Mode, hits: usize, groups: usize, random: &mut Random) -> FinderCall {
    let home = (random.below(CONTIGS), random.below(CONTIG));
    let mut lists = vec![vec![]; groups];
    for hit in 0..hits {
        let at = match hit < groups && hit % 2 == 0 {
            true => (home.0, home.1 + random.below(LENGTH)),
            false => (random.below(CONTIGS), random.below(CONTIG)),
        };
        lists[hit % groups].push((at.0 as u32, at.1 as u32));
    }
    lists.iter_mut().for_each(|list| list.sort_unstable());
    let (contigs, starts): (Vec<u32>, Vec<u32>) = lists.iter().flatten().copied().unzip();
    let ends = match mode {
        Mode::Minimizer => vec![],
        Mode::Interval => starts.iter().map(|start| start + random.within(1, LENGTH) as u32).collect(),
    };
    FinderCall {
        mode,
        groups: lists.iter().map(|list| list.len() as u32).collect(),
        contigs,
        starts,
        ends,
        minimum: 3,
        length: LENGTH as u32,
        threshold: u64::MAX,
        room: needs::finder(mode, hits),
    }
}

/// The case with its groups in a drawn order. Hits may come in any order, and a pool of one input would be learnt by the branch predictor.
fn reordered(call: &FinderCall, random: &mut Random) -> FinderCall {
    let mut order: Vec<usize> = (0..call.groups.len()).collect();
    for i in 1..order.len() {
        order.swap(i, random.below(i as u64 + 1) as usize);
    }
    let lengths: Vec<usize> = call.groups.iter().map(|&length| length as usize).collect();
    let first = |group: usize| lengths[..group].iter().sum::<usize>();
    let hits: Vec<usize> = order.iter().flat_map(|&group| first(group)..first(group) + lengths[group]).collect();
    let taken = |list: &[u32]| if list.is_empty() { vec![] } else { hits.iter().map(|&hit| list[hit]).collect() };
    FinderCall {
        groups: order.iter().map(|&group| call.groups[group]).collect(),
        contigs: taken(&call.contigs),
        starts: taken(&call.starts),
        ends: taken(&call.ends),
        ..call.clone()
    }
}

/// Memory for any finder of a pool.
struct Memory {
    keys: Vec<u64>,
    end_keys: Vec<u64>,
    contigs: Vec<u32>,
    starts: Vec<u32>,
    ends: Vec<u32>,
}

impl Memory {
    fn new(pool: &[FinderCall]) -> Self {
        let hits = pool.iter().map(|call| call.contigs.len()).max().unwrap_or(0);
        Memory { keys: vec![0; hits], end_keys: vec![0; hits], contigs: vec![0; hits], starts: vec![0; hits], ends: vec![0; hits] }
    }

    fn listed(&self, answer: &kelonbaro::FinderAnswer) -> FinderAnswer {
        let range = |i: usize| Candidate { contig: self.contigs[i], start: self.starts[i], end: self.ends[i] };
        FinderAnswer::Listed { ranges: (0..answer.count as usize).map(range).collect(), seed_hits: answer.seed_hits }
    }
}

#[inline(never)]
fn proved(call: &FinderCall, memory: &mut Memory) -> kelonbaro::FinderAnswer {
    let (groups, contigs, minimum, threshold) = (&call.groups[..], &call.contigs[..], call.minimum, call.threshold);
    let mut out = Candidates { contigs: &mut memory.contigs, starts: &mut memory.starts, ends: &mut memory.ends };
    let answer = match call.mode {
        Mode::Minimizer => {
            let given = MinimizerFinder { groups, contigs, positions: &call.starts, minimum, length: call.length, threshold };
            kelonbaro::minimizer_finder(given, &mut memory.keys, &mut out)
        }
        Mode::Interval => {
            let given = IntervalFinder { groups, contigs, starts: &call.starts, ends: &call.ends, minimum, threshold };
            kelonbaro::interval_finder(given, &mut memory.keys, &mut memory.end_keys, &mut out)
        }
    };
    answer.expect("a right call")
}

#[inline(never)]
fn original(call: &PreparedFinder) -> FoundByOriginal {
    call.run()
}

fn time(rounds: usize, pool: &[FinderCall]) -> Times {
    let prepared: Vec<PreparedFinder> = pool.iter().map(PreparedFinder::new).collect();
    let mut memory = Memory::new(pool);
    for (call, theirs) in pool.iter().zip(&prepared) {
        let answer = proved(call, &mut memory);
        assert!(memory.listed(&answer) == original(theirs).told(), "the sides differ");
    }
    let old = || {
        seconds(|| {
            for call in &prepared {
                black_box(original(black_box(call)));
            }
        })
    };
    let new = || {
        seconds(|| {
            for call in pool {
                black_box(proved(black_box(call), &mut memory));
            }
        })
    };
    let times = duel(rounds, old, new);
    let each = 1.0 / pool.len() as f64;
    Times { original: times.original * each, proved: times.proved * each, ratio: times.ratio }
}

/// Orders of a real case.
const ORDERS: usize = 200;
const SIZES: [(usize, usize); 2] = [(2_000, 240), (60_000, 4_096)];

fn main() {
    let rounds = timing::argument(1, 31);
    let folder: PathBuf = timing::argument(2, "examples".into());
    let real: Vec<FinderCall> = folder::finders(&folder).expect("finder cases").into_iter().map(|case| case.0).collect();
    println!("| finder | hits | groups | original, µs | proved, µs | ratio |");
    println!("|---|---|---|---|---|---|");
    for (name, mode) in [("minimizer", Mode::Minimizer), ("interval", Mode::Interval)] {
        for (hits, groups) in SIZES {
            let mut random = Random::new(1 + hits as u64);
            let pool: Vec<FinderCall> = (0..(200_000 / hits).max(4)).map(|_| drawn(mode, hits, groups, &mut random)).collect();
            let times = time(rounds, &pool);
            println!("| {name} | {hits} | {groups} | {:.1} | {:.1} | {:.2} |", times.original * 1e6, times.proved * 1e6, times.ratio);
        }
        for call in real.iter().filter(|call| call.mode == mode) {
            let mut random = Random::new(1);
            let pool: Vec<FinderCall> = (0..ORDERS).map(|_| reordered(call, &mut random)).collect();
            let times = time(rounds, &pool);
            let (hits, groups) = (call.contigs.len(), call.groups.len());
            println!("| {name}, real | {hits} | {groups} | {:.1} | {:.1} | {:.2} |", times.original * 1e6, times.proved * 1e6, times.ratio);
        }
    }
}
