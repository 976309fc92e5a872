//! The five library calls as document 01 tells them, written from its sentences and not from the Rust: plain, slow,
//! and made to be read beside the paper. Each call is its refusals, in number order, and then its answer.

pub mod finder;
pub mod interval;
pub mod job;
pub mod lines;
pub mod minimizer;
pub mod needs;
pub mod place;
pub mod refusals;
pub mod score;
pub mod script;

use crate::call::{
    Best, FinderAnswer, FinderCall, Mode, ScriptAnswer, ScriptCall, Stats, SweepAnswer, SweepCall,
};

pub fn script(call: &ScriptCall) -> ScriptAnswer {
    match refusals::script(call) {
        Err(refusal) => ScriptAnswer::Refused(refusal),
        Ok(()) => script::answer(call),
    }
}

pub fn sweep(call: &SweepCall) -> SweepAnswer {
    match refusals::sweep(call) {
        Err(refusal) => SweepAnswer::Refused(refusal),
        Ok(()) => {
            let (best, stats) = by_steps(call);
            place::answer(call, best, stats)
        }
    }
}

pub fn finder(call: &FinderCall) -> FinderAnswer {
    match refusals::finder(call) {
        Err(refusal) => FinderAnswer::Refused(refusal),
        Ok(()) => finder::answer(call),
    }
}

/// What an accepted sweep finds by the paper's steps.
pub fn by_steps(call: &SweepCall) -> (Option<Best>, Stats) {
    match call.mode {
        Mode::Minimizer => minimizer::by_steps(call),
        Mode::Interval => interval::by_steps(call),
    }
}

/// What an accepted sweep finds by scoring every start (demand 3).
pub fn by_scoring(call: &SweepCall) -> Option<Best> {
    match call.mode {
        Mode::Minimizer => minimizer::by_scoring(call),
        Mode::Interval => interval::by_scoring(call),
    }
}

/// Whether demand 3 speaks of this accepted sweep.
pub fn in_premises(call: &SweepCall) -> bool {
    match call.mode {
        Mode::Minimizer => minimizer::in_premises(call),
        Mode::Interval => interval::in_premises(call),
    }
}

/// How many starts `by_scoring` scores.
pub fn starts_to_score(call: &SweepCall) -> u64 {
    match call.mode {
        Mode::Minimizer => minimizer::admitted(call).count_to_score(),
        Mode::Interval => interval::positions(call).count_to_score(),
    }
}

/// The whole starts from `from` to `to`, both included; none where `to` lies before `from`.
#[derive(Clone, Copy, Debug, PartialEq, Eq)]
pub struct Starts {
    pub from: i64,
    pub to: i64,
}

impl Starts {
    fn count_to_score(self) -> u64 {
        (self.to - self.from + 1).max(0) as u64
    }
}
