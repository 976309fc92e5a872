//! What a case on the proved library came to.

use std::fmt::Debug;

pub struct Judged {
    /// The answer's kind, for the tally.
    pub kind: &'static str,
    /// Steps, items or hits of a call that was not refused, for the tally.
    pub entries: u64,
    /// Whether the model answered too.
    pub modelled: bool,
    pub difference: Option<String>,
}

/// The expected answer beside the one that came.
pub fn two_answers(proved: &impl Debug, expected: &impl Debug) -> String {
    format!("  proved {proved:?}\nexpected {expected:?}")
}

/// The name of the first slice that does not hold what it must.
pub fn first_wrong(slices: &[(&'static str, bool)]) -> Option<&'static str> {
    slices.iter().find(|slice| !slice.1).map(|slice| slice.0)
}
