//! The comparison sees what it is for: each wrong call here is the proved one with one fault, and is caught within 20,000 cases.

mod finder;
mod script;
mod sweep;

use crate::proved::Proved;
use crate::run;

const SEED: u64 = 1;
const COUNT: u64 = 20_000;

fn right(call: Proved) {
    assert!(run::random(call, SEED, COUNT, None));
}

fn caught(call: Proved) {
    assert!(!run::random(call, SEED, COUNT, None));
}
