//! The types of the original's `utils.rs` that the two files take, with the fields that they read, and its
//! `lower_bound`. The lookups hand out a group of hits by its number: the query hashes of a finder are 0, 1, 2, …

use std::sync::Arc;

use crate::anyhow_shim::{Error, Result};
use crate::candidate_window::PackedMinimizerHit;
use crate::compute_identity::{DistanceEstimate, DistanceModel};
use crate::simd_minimizer::{Minimizer, MinimizerMode, MinmerInterval};

pub(crate) type HashValue = u64;
pub(crate) type SeqId = usize;
pub(crate) type Offset = usize;

pub(crate) struct AniConfig {
    pub(crate) kmer_size: usize,
    pub(crate) min_identity: f64,
    pub(crate) distance_model: DistanceModel,
    pub(crate) minimizer_mode: MinimizerMode,
    pub(crate) chain: bool,
}

pub(crate) struct QuerySketch {
    pub(crate) fragment_id: usize,
    pub(crate) len: usize,
    pub(crate) unique_hashes: Vec<HashValue>,
    pub(crate) distance_table: Arc<[DistanceEstimate]>,
}

pub(crate) struct CompactLookupIndex {
    pub(crate) groups: Vec<Vec<PackedMinimizerHit>>,
}

impl CompactLookupIndex {
    pub(crate) fn get(&self, hash: HashValue) -> Option<&[PackedMinimizerHit]> {
        self.groups.get(hash as usize).map(Vec::as_slice)
    }
}

#[derive(Debug, Clone, Copy, PartialEq, Eq)]
pub(crate) struct PackedMinmerInterval {
    pub(crate) seq_id: u32,
    pub(crate) start: u32,
    pub(crate) end: u32,
}

impl PackedMinmerInterval {
    pub(crate) fn seq_id(self) -> SeqId {
        self.seq_id as usize
    }

    pub(crate) fn start(self) -> Offset {
        self.start as usize
    }

    pub(crate) fn end(self) -> Offset {
        self.end as usize
    }
}

pub(crate) struct MinmerIntervalLookup {
    pub(crate) groups: Vec<Vec<PackedMinmerInterval>>,
}

impl MinmerIntervalLookup {
    pub(crate) fn get(&self, hash: HashValue) -> Option<&[PackedMinmerInterval]> {
        self.groups.get(hash as usize).map(Vec::as_slice)
    }
}

pub(crate) struct ReferenceIndex {
    pub(crate) minimizers: Vec<Minimizer>,
    pub(crate) contig_ranges: Vec<std::ops::Range<usize>>,
    pub(crate) lookup: CompactLookupIndex,
    pub(crate) minmer_intervals: Vec<MinmerInterval>,
    pub(crate) contig_minmer_ranges: Vec<std::ops::Range<usize>>,
    pub(crate) minmer_lookup: Option<MinmerIntervalLookup>,
    pub(crate) freq_threshold: usize,
}

impl ReferenceIndex {
    pub(crate) fn lower_bound(&self, seq_id: SeqId, wpos: Offset) -> usize {
        let range = &self.contig_ranges[seq_id];
        let slice = &self.minimizers[range.clone()];
        range.start + slice.partition_point(|m| m.wpos < wpos)
    }

    pub(crate) fn contig_minimizer_bounds(&self, seq_id: SeqId) -> std::ops::Range<usize> {
        self.contig_ranges[seq_id].clone()
    }

    pub(crate) fn contig_minmer_bounds(&self, seq_id: SeqId) -> std::ops::Range<usize> {
        self.contig_minmer_ranges[seq_id].clone()
    }
}

pub(crate) fn u32_checked(value: usize, label: &str) -> Result<u32> {
    u32::try_from(value).map_err(|_| Error(format!("{label} exceeds u32::MAX")))
}
