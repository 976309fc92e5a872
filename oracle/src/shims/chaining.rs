//! Chaining is left behind: with the two scalar modes the original never comes here.

use crate::candidate_window::{L1Candidate, L1Stats};
use crate::{AniConfig, QuerySketch, ReferenceIndex};

pub(crate) fn do_l1_mapping_diagonal_then_chained(
    _query: &QuerySketch,
    _reference: &ReferenceIndex,
    _config: &AniConfig,
) -> (Vec<L1Candidate>, L1Stats) {
    unreachable!("chaining is left behind")
}

pub(crate) fn do_l1_mapping_diagonal_then_rammap(
    _query: &QuerySketch,
    _reference: &ReferenceIndex,
    _config: &AniConfig,
) -> (Vec<L1Candidate>, L1Stats) {
    unreachable!("chaining is left behind")
}
