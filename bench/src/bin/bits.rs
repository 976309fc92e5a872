//! set, clear and the two searches against the original's `SummaryBitSet`, a list of operations to a call on both sides.
//!
//! Both sides run one operation after the other, each index read just before it. The original tests the index within each operation. The proved
//! operations have it proved by their caller, here without a look at the list: an index has 16 bits, and every set has the 1,024 words that a
//! script needs at most, whatever the number of coordinates in use. In the rows that say `tested` an index has 32 bits, and the proved side's
//! border tests it before each operation too.
//!
//! Each row has a pool of different sets and lists. A round runs the whole pool on one side and then on the other, the sides taking turns at
//! going first; a row shows the median of the rounds' ratios. Before any time is taken the two sides' answers and states
//! are compared.

#[path = "../original_bits.rs"]
mod original_bits;

use original_bits::SummaryBitSet;
use std::hint::black_box;

extern "C" {
    fn bits_set(words: *mut u64, nw: usize, summary: *mut u64, ns: usize, at: *const u16, n: usize) -> u32;
    fn bits_clear(words: *mut u64, nw: usize, summary: *mut u64, ns: usize, at: *const u16, n: usize) -> u32;
    fn bits_set_tested(words: *mut u64, nw: usize, summary: *mut u64, ns: usize, at: *const u32, n: usize) -> u32;
    fn bits_clear_tested(words: *mut u64, nw: usize, summary: *mut u64, ns: usize, at: *const u32, n: usize) -> u32;
    fn bits_prev(words: *const u64, nw: usize, summary: *const u64, ns: usize, at: *const u16, n: usize, out: *mut u32, no: usize) -> u32;
    fn bits_next(words: *const u64, nw: usize, summary: *const u64, ns: usize, at: *const u16, n: usize, out: *mut u32, no: usize) -> u32;
}

#[derive(Clone, Copy, PartialEq)]
enum Operation {
    Set,
    Clear,
    SetTested,
    ClearTested,
    Prev,
    Next,
}

/// One set with the operations to run on it.
struct Work {
    set: SummaryBitSet,
    at: Vec<u16>,
    wide: Vec<u32>,
    out: Vec<u32>,
}

const NOTHING: u32 = u32::MAX;

/// Coordinates of a script, at most.
const MOST: usize = 65_536;

/// Instructions of nothing before the original's loops, from the environment of the build: bench/places moves both sides' code by them.
const NOPS: usize = match option_env!("NOPS") {
    Some(digits) => number(digits.as_bytes()),
    None => 0,
};

const fn number(digits: &[u8]) -> usize {
    let (mut n, mut i) = (0, 0);
    while i < digits.len() {
        n = n * 10 + (digits[i] - b'0') as usize;
        i += 1;
    }
    n
}

#[inline(never)]
fn original(op: Operation, w: &mut Work) {
    // SAFETY: the instructions do nothing.
    unsafe { std::arch::asm!(".rept {n}", "nop", ".endr", n = const NOPS, options(nomem, nostack, preserves_flags)) };
    match op {
        Operation::Set => {
            for &i in &w.at {
                w.set.set(i as usize);
            }
        }
        Operation::Clear => {
            for &i in &w.at {
                w.set.clear(i as usize);
            }
        }
        Operation::SetTested => {
            for &i in &w.wide {
                w.set.set(i as usize);
            }
        }
        Operation::ClearTested => {
            for &i in &w.wide {
                w.set.clear(i as usize);
            }
        }
        Operation::Prev => {
            for (&i, o) in w.at.iter().zip(w.out.iter_mut()) {
                *o = w.set.prev_set_before(i as usize).map_or(NOTHING, |j| j as u32);
            }
        }
        Operation::Next => {
            for (&i, o) in w.at.iter().zip(w.out.iter_mut()) {
                *o = w.set.next_set_after(i as usize).map_or(NOTHING, |j| j as u32);
            }
        }
    }
}

#[inline(never)]
fn proved(op: Operation, w: &mut Work) {
    let (words, nw) = (w.set.words.as_mut_ptr(), w.set.words.len());
    let (summary, ns) = (w.set.summary.as_mut_ptr(), w.set.summary.len());
    let (at, wide, n) = (w.at.as_ptr(), w.wide.as_ptr(), w.at.len());
    let (out, no) = (w.out.as_mut_ptr(), w.out.len());
    // SAFETY: each pointer goes with its slice's own length (`wide` is as long as `at`), and the slices do not overlap.
    let run = unsafe {
        match op {
            Operation::Set => bits_set(words, nw, summary, ns, at, n),
            Operation::Clear => bits_clear(words, nw, summary, ns, at, n),
            Operation::SetTested => bits_set_tested(words, nw, summary, ns, wide, n),
            Operation::ClearTested => bits_clear_tested(words, nw, summary, ns, wide, n),
            Operation::Prev => bits_prev(words, nw, summary, ns, at, n, out, no),
            Operation::Next => bits_next(words, nw, summary, ns, at, n, out, no),
        }
    };
    assert_eq!(run, 1, "the proved side refused its arguments");
}

fn random(state: &mut u64) -> u64 {
    *state = state.wrapping_add(0x9e37_79b9_7f4a_7c15);
    let mut z = *state;
    z = (z ^ (z >> 30)).wrapping_mul(0xbf58_476d_1ce4_e5b9);
    z = (z ^ (z >> 27)).wrapping_mul(0x94d0_49bb_1331_11eb);
    z ^ (z >> 31)
}

/// `len` coordinates of which about one in `sparse` is set, and `n` operations at random coordinates.
fn work(len: usize, sparse: u64, n: usize, seed: u64) -> Work {
    let mut state = seed;
    let mut set = SummaryBitSet::new(MOST);
    for i in 0..len {
        if random(&mut state) % sparse == 0 {
            set.set(i);
        }
    }
    let at: Vec<u16> = (0..n).map(|_| (random(&mut state) % len as u64) as u16).collect();
    let wide = at.iter().map(|&i| u32::from(i)).collect();
    Work { set, at, wide, out: vec![0; n] }
}

fn copy(w: &Work) -> Work {
    Work {
        set: SummaryBitSet { words: w.set.words.clone(), summary: w.set.summary.clone() },
        at: w.at.clone(),
        wide: w.wide.clone(),
        out: w.out.clone(),
    }
}

#[repr(C)]
struct Timespec {
    seconds: i64,
    nanoseconds: i64,
}

extern "C" {
    fn clock_gettime(clock: i32, at: *mut Timespec) -> i32;
}

/// Seconds that this thread has run (Linux's clock 3): what other programs take of the machine is not counted.
fn clock() -> f64 {
    let mut at = Timespec { seconds: 0, nanoseconds: 0 };
    // SAFETY: `at` is a `timespec` of 64-bit Linux.
    let failed = unsafe { clock_gettime(3, &mut at) };
    assert_eq!(failed, 0, "no clock for the thread");
    at.seconds as f64 + at.nanoseconds as f64 * 1e-9
}

/// Seconds for the whole pool, run in `works`: both sides use the same memory, set anew before each run.
fn time(run: fn(Operation, &mut Work), op: Operation, pool: &[Work], works: &mut [Work]) -> f64 {
    for (w, p) in works.iter_mut().zip(pool) {
        w.set.words.copy_from_slice(&p.set.words);
        w.set.summary.copy_from_slice(&p.set.summary);
    }
    let began = clock();
    for w in works.iter_mut() {
        run(op, black_box(w));
    }
    clock() - began
}

fn median(mut xs: Vec<f64>) -> f64 {
    xs.sort_by(f64::total_cmp);
    xs[xs.len() / 2]
}

fn agree(op: Operation, pool: &[Work]) {
    for w in pool {
        let (mut a, mut b) = (copy(w), copy(w));
        original(op, &mut a);
        proved(op, &mut b);
        assert!(a.set.words == b.set.words && a.set.summary == b.set.summary && a.out == b.out, "the sides differ");
    }
}

fn main() {
    let rounds: usize = std::env::args().nth(1).map_or(101, |x| x.parse().expect("the number of rounds"));
    println!("| operation | coordinates | set, one in | original, ns | proved, ns | ratio |");
    println!("|---|---|---|---|---|---|");
    for (name, op) in [
        ("set", Operation::Set),
        ("clear", Operation::Clear),
        ("set, tested", Operation::SetTested),
        ("clear, tested", Operation::ClearTested),
        ("prev_set_before", Operation::Prev),
        ("next_set_after", Operation::Next),
    ] {
        for len in [2_288, MOST] {
            for sparse in [2u64, 10, 200, 5_000] {
                let (sets, n) = if op == Operation::Prev || op == Operation::Next { (4, 32_768) } else { (64, 2_048) };
                let pool: Vec<Work> = (0..sets).map(|q| work(len, sparse, n, 1 + q as u64 * 7_919)).collect();
                agree(op, &pool);
                let mut works: Vec<Work> = pool.iter().map(copy).collect();
                let (mut old, mut new, mut ratio) = (vec![], vec![], vec![]);
                for round in 0..rounds {
                    let (a, b) = if round % 2 == 0 {
                        let a = time(original, op, &pool, &mut works);
                        (a, time(proved, op, &pool, &mut works))
                    } else {
                        let b = time(proved, op, &pool, &mut works);
                        (time(original, op, &pool, &mut works), b)
                    };
                    old.push(a);
                    new.push(b);
                    ratio.push(b / a);
                }
                let each = 1e9 / (sets * n) as f64;
                println!("| {name} | {len} | {sparse} | {:.3} | {:.3} | {:.2} |", median(old) * each, median(new) * each, median(ratio));
            }
        }
    }
}
