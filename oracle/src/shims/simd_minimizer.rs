//! The modes and item types of the original's `simd_minimizer.rs`; sketching is left behind, and with it the third mode.

use crate::{HashValue, Offset, SeqId};

#[derive(Debug, Clone, Copy, PartialEq, Eq)]
pub(crate) enum MinimizerMode {
    Scalar,
    ScalarMinmer,
}

#[derive(Debug, Clone, Copy)]
pub(crate) struct Minimizer {
    pub(crate) hash: HashValue,
    // Set by the original's reader and never looked at by the two files here.
    #[allow(dead_code)]
    pub(crate) seq_id: SeqId,
    pub(crate) wpos: Offset,
}

#[derive(Debug, Clone, Copy)]
pub(crate) struct MinmerInterval {
    pub(crate) hash: HashValue,
    #[allow(dead_code)]
    pub(crate) seq_id: SeqId,
    pub(crate) start: Offset,
    pub(crate) end: Offset,
}
