//! The slide mapper's moves, one by one, and whole scripts, against the original's `BitsetBottomSketchSlideMapper`:
//! `bench/run script [ROUNDS]`.
//!
//! Each row has a pool of different inputs. A round runs the whole pool on one side and then on the other, the sides taking turns at going
//! first; a row shows the median of the rounds' ratios. Before any time is taken the two sides' answers and states are compared.
//! Time is the processor time of this thread.

#[path = "../original_bits.rs"]
#[allow(dead_code)]
mod original_bits;
#[path = "../original_mapper.rs"]
mod original_mapper;

use kelonbaro::{Script, ScriptNeeds, ScriptWork};
use original_bits::SummaryBitSet;
use original_mapper::BitsetBottomSketchSlideMapper;
use std::hint::black_box;

type Moves = unsafe extern "C" fn(
    counts: *mut u32,
    counts_len: usize,
    words: *mut u64,
    words_len: usize,
    summary: *mut u64,
    summary_len: usize,
    pivot: u32,
    shared: u32,
    at: *const u32,
    at_len: usize,
    last: *mut u32,
    last_len: usize,
) -> usize;

#[rustfmt::skip]
extern "C" {
    fn slide_insert(counts: *mut u32, counts_len: usize, words: *mut u64, words_len: usize, summary: *mut u64, summary_len: usize, pivot: u32, shared: u32, at: *const u32, at_len: usize, last: *mut u32, last_len: usize) -> usize;
    fn slide_delete(counts: *mut u32, counts_len: usize, words: *mut u64, words_len: usize, summary: *mut u64, summary_len: usize, pivot: u32, shared: u32, at: *const u32, at_len: usize, last: *mut u32, last_len: usize) -> usize;
    fn clock_gettime(clock: i32, time: *mut [i64; 2]) -> i32;
}

/// The processor time of this thread, in seconds.
fn clock() -> f64 {
    const THREAD_CPUTIME: i32 = 3;
    let mut time = [0; 2];
    // SAFETY: two i64 are a `timespec` of 64-bit Linux.
    let failed = unsafe { clock_gettime(THREAD_CPUTIME, &mut time) };
    assert_eq!(failed, 0, "this thread has a clock");
    time[0] as f64 + time[1] as f64 * 1e-9
}

/// SplitMix64.
struct Random(u64);

impl Random {
    fn next(&mut self) -> u64 {
        self.0 = self.0.wrapping_add(0x9e37_79b9_7f4a_7c15);
        let mut z = self.0;
        z = (z ^ (z >> 30)).wrapping_mul(0xbf58_476d_1ce4_e5b9);
        z = (z ^ (z >> 27)).wrapping_mul(0x94d0_49bb_1331_11eb);
        z ^ (z >> 31)
    }

    fn below(&mut self, n: usize) -> usize {
        (self.next() % n as u64) as usize
    }
}

/// `query` hashes and `others` that a reference has: coordinates are their order, each once.
struct Input {
    query: Vec<u64>,
    coords: Vec<u64>,
    /// The coordinate of each reference item, in the order of their positions.
    items: Vec<u32>,
}

fn input(query: usize, others: usize, random: &mut Random) -> Input {
    let mut coords: Vec<u64> = Vec::new();
    while coords.len() < query + others {
        coords.extend((coords.len()..query + others).map(|_| random.next() >> 16));
        coords.sort_unstable();
        coords.dedup();
    }
    let mut chosen: Vec<usize> = (0..coords.len()).collect();
    for i in 0..query {
        chosen.swap(i, i + random.below(coords.len() - i));
    }
    let mut query: Vec<u64> = chosen[..query].iter().map(|&i| coords[i]).collect();
    query.sort_unstable();
    let items = (0..others).map(|_| random.below(coords.len()) as u32).collect();
    Input { query, coords, items }
}

/// A state of both sides, and the coordinates to insert or to delete.
struct Work {
    mapper: BitsetBottomSketchSlideMapper,
    counts: Vec<u32>,
    words: Vec<u64>,
    summary: Vec<u64>,
    at: Vec<u32>,
}

fn copy(mapper: &BitsetBottomSketchSlideMapper) -> BitsetBottomSketchSlideMapper {
    BitsetBottomSketchSlideMapper {
        query_present: mapper.query_present.clone(),
        ref_count: mapper.ref_count.clone(),
        union_bits: SummaryBitSet { words: mapper.union_bits.words.clone(), summary: mapper.union_bits.summary.clone() },
        pivot_idx: mapper.pivot_idx,
        shared: mapper.shared,
    }
}

fn work(mapper: &BitsetBottomSketchSlideMapper, at: &[u32]) -> Work {
    let mut work = Work { mapper: copy(mapper), counts: vec![0; mapper.ref_count.len()], words: vec![], summary: vec![], at: at.to_vec() };
    reset(&mut work, mapper);
    work
}

/// Both sides' state anew, in the memory that they have.
fn reset(work: &mut Work, mapper: &BitsetBottomSketchSlideMapper) {
    work.mapper.ref_count.copy_from_slice(&mapper.ref_count);
    work.mapper.union_bits.words.copy_from_slice(&mapper.union_bits.words);
    work.mapper.union_bits.summary.copy_from_slice(&mapper.union_bits.summary);
    work.mapper.pivot_idx = mapper.pivot_idx;
    work.mapper.shared = mapper.shared;
    for (word, (&count, &flag)) in work.counts.iter_mut().zip(mapper.ref_count.iter().zip(&mapper.query_present)) {
        *word = 2 * count + u32::from(flag);
    }
    work.words.clone_from(&mapper.union_bits.words);
    work.summary.clone_from(&mapper.union_bits.summary);
}

#[derive(Clone, Copy)]
enum Kind {
    Insert,
    Delete,
}

#[inline(never)]
fn original(kind: Kind, work: &mut Work) -> [u32; 2] {
    match kind {
        Kind::Insert => {
            for &i in &work.at {
                work.mapper.insert_ref(i as usize);
            }
        }
        Kind::Delete => {
            for &i in &work.at {
                work.mapper.delete_ref(i as usize);
            }
        }
    }
    [work.mapper.pivot_idx as u32, work.mapper.shared() as u32]
}

#[inline(never)]
fn proved(kind: Kind, work: &mut Work) -> [u32; 2] {
    let moves: Moves = match kind {
        Kind::Insert => slide_insert,
        Kind::Delete => slide_delete,
    };
    let (pivot, shared) = (work.mapper.pivot_idx as u32, work.mapper.shared as u32);
    let mut last = [0; 2];
    // SAFETY: each pointer goes with its own length, the lists do not overlap, and `reset` made the state that the moves ask.
    let run = unsafe {
        moves(
            work.counts.as_mut_ptr(),
            work.counts.len(),
            work.words.as_mut_ptr(),
            work.words.len(),
            work.summary.as_mut_ptr(),
            work.summary.len(),
            pivot,
            shared,
            work.at.as_ptr(),
            work.at.len(),
            last.as_mut_ptr(),
            last.len(),
        )
    };
    assert_eq!(run, work.at.len(), "the proved side stopped");
    last
}

fn agree(kind: Kind, start: &BitsetBottomSketchSlideMapper, at: &[u32]) {
    let mut work = work(start, at);
    let new = proved(kind, &mut work);
    let old = original(kind, &mut work);
    assert_eq!(old, new, "the pairs differ");
    let mapper = &work.mapper;
    let counts = mapper.ref_count.iter().zip(&mapper.query_present).map(|(&count, &flag)| 2 * count + u32::from(flag));
    assert!(counts.eq(work.counts.iter().copied()), "the counts differ");
    assert!(mapper.union_bits.words == work.words && mapper.union_bits.summary == work.summary, "the bits differ");
}

fn median(mut xs: Vec<f64>) -> f64 {
    xs.sort_by(f64::total_cmp);
    xs[xs.len() / 2]
}

/// Seconds for the whole pool.
fn time(side: fn(Kind, &mut Work) -> [u32; 2], kind: Kind, pool: &[(BitsetBottomSketchSlideMapper, Vec<u32>)], works: &mut [Work]) -> f64 {
    for (work, (start, _)) in works.iter_mut().zip(pool) {
        reset(work, start);
    }
    let began = clock();
    for work in works.iter_mut() {
        black_box(side(kind, black_box(work)));
    }
    clock() - began
}

/// States with half of the items active, and the other half to insert; or those with all of them, and half to delete.
fn states(kind: Kind, query: usize, others: usize, random: &mut Random) -> (BitsetBottomSketchSlideMapper, Vec<u32>) {
    let input = input(query, others, random);
    let mut mapper = BitsetBottomSketchSlideMapper::new(&input.query, &input.coords);
    let (first, second) = input.items.split_at(input.items.len() / 2);
    for &i in first {
        mapper.insert_ref(i as usize);
    }
    if let Kind::Insert = kind {
        return (mapper, second.to_vec());
    }
    for &i in second {
        mapper.insert_ref(i as usize);
    }
    (mapper, first.to_vec())
}

const SIZES: [(usize, usize); 3] = [(237, 500), (512, 2_048), (4_096, 61_440)];

/// Median seconds of the original and of the proved side, and the median of the rounds' ratios.
fn duel(rounds: usize, mut old: impl FnMut() -> f64, mut new: impl FnMut() -> f64) -> [f64; 3] {
    let mut seen = [vec![], vec![], vec![]];
    for round in 0..rounds {
        let (a, b) = if round % 2 == 0 {
            let a = old();
            (a, new())
        } else {
            let b = new();
            (old(), b)
        };
        for (list, x) in seen.iter_mut().zip([a, b, b / a]) {
            list.push(x);
        }
    }
    seen.map(median)
}

fn moves(rounds: usize) {
    println!("| move | query | others | original, ns | proved, ns | ratio |");
    println!("|---|---|---|---|---|---|");
    for (name, kind) in [("insert", Kind::Insert), ("delete", Kind::Delete)] {
        for (query, others) in SIZES {
            let mut random = Random(1 + others as u64);
            let inputs = (200_000 / others).max(4);
            let pool: Vec<_> = (0..inputs).map(|_| states(kind, query, others, &mut random)).collect();
            for (start, at) in &pool {
                agree(kind, start, at);
            }
            let mut works: Vec<Work> = pool.iter().map(|(start, at)| work(start, at)).collect();
            let works = std::cell::RefCell::new(&mut works);
            let side = |side| time(side, kind, &pool, &mut works.borrow_mut());
            let [old, new, ratio] = duel(rounds, || side(original), || side(proved));
            let each = 1e9 / pool.iter().map(|(_, at)| at.len()).sum::<usize>() as f64;
            println!("| {name} | {query} | {others} | {:.2} | {:.2} | {ratio:.2} |", old * each, new * each);
        }
    }
}

/// A whole script with the two output lists.
struct Whole {
    query: Vec<u64>,
    coords: Vec<u64>,
    indexes: Vec<u32>,
    kinds: Vec<u8>,
    pivots: Vec<u32>,
    shared: Vec<u32>,
}

const MOST_STEPS: usize = 65_536;

/// A window of as many items as the query has hashes goes over the items: it takes one in at its end and drops one at its front.
fn sliding(query: usize, others: usize, random: &mut Random) -> Whole {
    let input = input(query, others, random);
    let mut steps = vec![];
    for (end, &item) in input.items.iter().enumerate() {
        steps.push((item, 1));
        if query <= end {
            steps.push((input.items[end - query], 0));
        }
    }
    whole(input, steps)
}

/// Inserts and deletes at coordinates drawn at random.
fn drawn(query: usize, others: usize, random: &mut Random) -> Whole {
    let input = input(query, others, random);
    let step = |_| (random.below(input.coords.len()) as u32, random.below(2) as u8);
    let steps = (0..2 * others).map(step).collect();
    whole(input, steps)
}

fn whole(input: Input, mut steps: Vec<(u32, u8)>) -> Whole {
    steps.truncate(MOST_STEPS);
    let outputs = vec![0; steps.len()];
    let (indexes, kinds) = steps.into_iter().unzip();
    Whole { query: input.query, coords: input.coords, indexes, kinds, pivots: outputs.clone(), shared: outputs }
}

#[inline(never)]
fn original_script(script: &mut Whole) -> (u32, u32) {
    let mut mapper = BitsetBottomSketchSlideMapper::new(&script.query, &script.coords);
    let steps = script.indexes.iter().zip(&script.kinds);
    let outputs = script.pivots.iter_mut().zip(script.shared.iter_mut());
    for ((&index, &kind), (pivot, shared)) in steps.zip(outputs) {
        match kind {
            0 => mapper.delete_ref(index as usize),
            _ => mapper.insert_ref(index as usize),
        }
        *pivot = mapper.pivot_idx as u32;
        *shared = mapper.shared() as u32;
    }
    (mapper.pivot_idx as u32, mapper.shared() as u32)
}

#[inline(never)]
fn proved_script(script: &mut Whole, work: &mut ScriptWork) -> (u32, u32) {
    let call = Script { query: &script.query, coords: &script.coords, indexes: &script.indexes, kinds: &script.kinds };
    let last = kelonbaro::script(call, work, &mut script.pivots, &mut script.shared).expect("a right script");
    (last.pivot, last.shared)
}

/// Both sides answer alike, step by step.
fn agree_on(script: &mut Whole, work: &mut ScriptWork) {
    let old = original_script(script);
    let (pivots, shared) = (script.pivots.clone(), script.shared.clone());
    let new = proved_script(script, work);
    assert!(old == new && pivots == script.pivots && shared == script.shared, "the sides differ");
}

fn scripts(rounds: usize) {
    println!("| script | query | others | steps | original, ns a step | proved, ns a step | ratio |");
    println!("|---|---|---|---|---|---|---|");
    type Draw = fn(usize, usize, &mut Random) -> Whole;
    for (name, draw) in [("sliding", sliding as Draw), ("random", drawn)] {
        for (query, others) in SIZES {
            let mut random = Random(7 + others as u64);
            let inputs = (100_000 / others).max(4);
            let mut pool: Vec<Whole> = (0..inputs).map(|_| draw(query, others, &mut random)).collect();
            let needs = ScriptNeeds::of(query + others, 0);
            let (mut counts, mut words, mut summary) = (vec![0; needs.counts], vec![0; needs.words], vec![0; needs.summary]);
            let mut work = ScriptWork { counts: &mut counts, words: &mut words, summary: &mut summary };
            for script in &mut pool {
                agree_on(script, &mut work);
            }
            let steps: usize = pool.iter().map(|script| script.indexes.len()).sum();
            let pool = std::cell::RefCell::new(&mut pool);
            let side = |run: &mut dyn FnMut(&mut Whole) -> (u32, u32)| {
                let began = clock();
                for script in pool.borrow_mut().iter_mut() {
                    black_box(run(black_box(script)));
                }
                clock() - began
            };
            let [old, new, ratio] = duel(rounds, || side(&mut original_script), || side(&mut |script| proved_script(script, &mut work)));
            let each = 1e9 / steps as f64;
            println!("| {name} | {query} | {others} | {} | {:.2} | {:.2} | {ratio:.2} |", steps / inputs, old * each, new * each);
        }
    }
}

fn main() {
    let rounds: usize = std::env::args().nth(1).map_or(101, |x| x.parse().expect("the number of rounds"));
    moves(rounds);
    println!();
    scripts(rounds);
}
