//! The estimate type, and the caller's own minimum of hits in the place of the original's estimate of it.

/// Stands where the original names its distance model, and carries the minimum that the caller gives.
#[derive(Debug, Clone, Copy)]
pub(crate) struct DistanceModel {
    pub(crate) minimum_hits: usize,
}

#[derive(Debug, Clone, Copy)]
pub(crate) struct DistanceEstimate {
    pub(crate) identity: f64,
    pub(crate) identity_upper_bound: f64,
}

/// The minimum is an input of the finders; the original's estimate is left behind.
pub(crate) fn estimate_minimum_hits_relaxed_with_model(
    _sketch_size: usize,
    _k: usize,
    _percent_identity: f64,
    model: DistanceModel,
) -> usize {
    model.minimum_hits
}
