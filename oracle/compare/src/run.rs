//! Many cases of one call: drawn at random, or all over tiny domains.

use std::collections::BTreeMap;
use std::time::Instant;

use oracle::case::Case;
use oracle::exhaust;
use oracle::generate::{self, Size};
use oracle::random::Random;
use oracle::readable::readable;
use oracle::shrink::shrunk_while;

use crate::faults;
use crate::proved::Proved;

/// How often each kind of answer came.
#[derive(Default)]
pub struct Tally {
    kinds: BTreeMap<&'static str, u64>,
    cases: u64,
    entries: u64,
    modelled: u64,
}

impl Tally {
    /// Judges a case and counts it; a difference is shrunk and printed, and the answer is whether there was none.
    pub fn judge(&mut self, proved: Proved, case: &Case) -> bool {
        let judged = proved.judge(case);
        *self.kinds.entry(judged.kind).or_default() += 1;
        self.cases += 1;
        self.entries += judged.entries;
        self.modelled += u64::from(judged.modelled);
        if judged.difference.is_some() {
            report(proved, case);
        }
        judged.difference.is_none()
    }

    pub fn print(&self, began: Instant) {
        for (kind, count) in &self.kinds {
            println!("{kind:24} {count:>10}");
        }
        println!(
            "{} cases, {} steps, items or hits in those answered, {} cases by the model too, {:.1} s",
            self.cases,
            self.entries,
            self.modelled,
            began.elapsed().as_secs_f64()
        );
    }
}

fn report(proved: Proved, case: &Case) {
    let differs = |case: &Case| proved.judge(case).difference;
    let small = shrunk_while(case, |case| differs(case).is_some());
    println!("DIFFERENCE in {}", readable(&small));
    match &small {
        Case::Script(call) => println!("  lent {:?}", call.room),
        Case::Sweep(call) => println!("  lent {:?}", call.room),
        Case::Finder(call) => println!("  lent {:?}", call.room),
    }
    if let Some(difference) = differs(&small) {
        println!("{difference}");
    }
}

/// Judges `count` cases as the oracle draws them, mostly small ones where no size is given; answers whether there was no difference.
pub fn random(proved: Proved, seed: u64, count: u64, only: Option<Size>) -> bool {
    let began = Instant::now();
    let mut random = Random::new(seed);
    let mut tally = Tally::default();
    let same = (0..count).all(|_| {
        let size = only.unwrap_or(match random.once_in(500) {
            true => Size::Medium,
            false => Size::Small,
        });
        let mut case = generate::of(&mut random, size, proved.kind());
        if size == Size::Limit && random.once_in(2) {
            widen(&mut case);
        }
        tally.judge(proved, &case)
    });
    println!("{}, seed {seed}", proved.kind().name());
    tally.print(began);
    same
}

/// The oracle keeps the ranges of its largest sweeps short for the model's sake; the original alone can go over the whole contig.
fn widen(case: &mut Case) {
    if let Case::Sweep(call) = case {
        call.range_end = call.starts.last().copied().unwrap_or(call.range_end);
    }
}

/// All cases of the oracle's domain of this call, and the wrong and right lists of `faults`; answers whether there was no difference.
pub fn exhaust(proved: Proved) -> bool {
    let began = Instant::now();
    let mut tally = Tally::default();
    let kind = proved.kind();
    let same = exhaust::all(kind, &mut |case| tally.judge(proved, case))
        && faults::all(kind, &mut |case| tally.judge(proved, case));
    println!("{}", kind.name());
    tally.print(began);
    same
}
