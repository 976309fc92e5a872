//! Safe calls of Kelonbaro's library: the mapping part of TurboANI, with its answers proved.
//!
//! Five calls: [`minimizer_finder`] and [`interval_finder`] list where a fragment may start in a reference, [`minimizer_sweep`] and
//! [`interval_sweep`] place it in one such range, and [`script`] runs single inserts and deletes over the sketch that the sweeps slide.
//!
//! A call takes its inputs and its work memory as slices, allocates nothing, keeps nothing and never panics. Inputs that it does not take are
//! refused with a number and a place ([`Refusal`]), and then no lent slice has changed. What each call answers, and every byte that it
//! leaves in the slices, is proved from definitions in the repository's `crates/rules/specs`; the wrappers here are not
//! proved, they pass addresses and lengths.
//!
//! Build the archive first: `rt lib` in crates/exports.

mod ffi;
mod finder;
mod interval_sweep;
mod minimizer_sweep;
mod script;
mod sweep;

pub use finder::{
    interval_finder, minimizer_finder, Candidate, Candidates, FinderAnswer, IntervalFinder,
    MinimizerFinder,
};
pub use interval_sweep::{interval_sweep, IntervalSweep};
pub use minimizer_sweep::{minimizer_sweep, MinimizerSweep};
pub use script::{script, Final, Script, ScriptNeeds, ScriptWork};
pub use sweep::{Estimate, Place, Range, Settings, Stats, SweepAnswer, SweepNeeds, SweepWork};

/// Why a call was refused. Checks run in the order of their numbers, and the first that fails is told.
///
/// | number | what was wrong |
/// |---|---|
/// | 1 | a list passes its limit; a script has no coordinate |
/// | 2 | k-mer size 0, window size 0, or minimum hits 0 or above 2^31 − 1 |
/// | 3 | parallel lists differ in length, or group lengths do not sum to the hits |
/// | 4 | the query is not strictly ascending; in a script, it is empty |
/// | 5 | positions or interval starts descend; script coordinates are not strictly ascending |
/// | 6 | in a script, a query hash that is no coordinate, a step index past them, or a kind other than 0 and 1 |
/// | 7 | the distance table is too short for the query |
/// | 8 | a work or output slice is shorter than its need |
#[derive(Clone, Copy, Debug, PartialEq, Eq)]
pub struct Refusal {
    /// The number, 1 to 8.
    pub number: u8,
    /// For 4, 5 and 6 the index of the first offending element (of two neighbours the later), for the others 0.
    pub place: u32,
}

impl std::fmt::Display for Refusal {
    fn fmt(&self, f: &mut std::fmt::Formatter<'_>) -> std::fmt::Result {
        write!(f, "refused {} at {}", self.number, self.place)
    }
}

impl std::error::Error for Refusal {}
