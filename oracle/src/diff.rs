//! `oracle diff`: random cases, the original against the model, and the model's steps against scoring every start.

use std::collections::BTreeMap;
use std::time::Instant;

use crate::case::{Case, Patience, LIMIT_PATIENCE, SMALL_PATIENCE};
use crate::generate::{self, Size};
use crate::random::Random;
use crate::readable::readable;
use crate::shrink::shrunk;

/// How often each kind of answer came, by call.
#[derive(Default)]
pub struct Tally {
    counts: BTreeMap<(&'static str, &'static str), u64>,
    cases: u64,
}

impl Tally {
    /// Judges the case and counts it; a difference is shrunk and printed, and the answer is whether there was none.
    pub fn judge(&mut self, case: &Case, patience: Patience) -> bool {
        let judged = case.judge(patience);
        self.cases += 1;
        for kind in judged.kinds {
            *self.counts.entry((case.call_name(), kind)).or_default() += 1;
        }
        if judged.difference.is_none() {
            return true;
        }
        report(case, patience);
        false
    }

    /// How often this kind of answer came of this call.
    pub fn count(&self, call: &'static str, kind: &'static str) -> u64 {
        self.counts.get(&(call, kind)).copied().unwrap_or(0)
    }

    pub fn print(&self, seconds: f64) {
        for ((call, kind), count) in &self.counts {
            println!("{call:16} {kind:36} {count:>10}");
        }
        println!("{} cases, {seconds:.1} s", self.cases);
    }
}

fn report(case: &Case, patience: Patience) {
    let case = shrunk(case, patience);
    println!("DIFFERENCE in {}", readable(&case));
    if let Some(difference) = case.judge(patience).difference {
        println!("{difference}");
    }
}

/// Prints how often each kind of answer came, and answers whether there was no difference.
pub fn run(seed: u64, count: u64, only: Option<Size>) -> bool {
    let began = Instant::now();
    let (tally, all_same) = judged(seed, count, only);
    println!("seed {seed}");
    tally.print(began.elapsed().as_secs_f64());
    all_same
}

/// Mostly small cases, or all of one size, up to the first difference.
pub fn judged(seed: u64, count: u64, only: Option<Size>) -> (Tally, bool) {
    let mut random = Random::new(seed);
    let mut tally = Tally::default();
    for _ in 0..count {
        let size = only.unwrap_or(match random.once_in(500) {
            true => Size::Medium,
            false => Size::Small,
        });
        let patience = match size {
            Size::Small => SMALL_PATIENCE,
            Size::Medium | Size::Limit => LIMIT_PATIENCE,
        };
        if !tally.judge(&generate::case(&mut random, size), patience) {
            return (tally, false);
        }
    }
    (tally, true)
}
