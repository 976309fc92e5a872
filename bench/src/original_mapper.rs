//! `BitsetBottomSketchSlideMapper` as it stands in TurboANI's `src/sliding_mapper.rs` (commit 286f43e3a4, MIT; the whole file is
//! `oracle/turboani/sliding_mapper.rs`), over the `SummaryBitSet` of `original_bits.rs`. Carried over as it is, but for two things: visibility
//! is `pub`, and its fields too, so that the benchmark reads the pivot and hands the same state to the proved functions; and
//! `insert_ref_range`, which only the sweep calls, is left out.

use crate::original_bits::SummaryBitSet;

type HashValue = u64;

#[derive(Debug)]
pub struct BitsetBottomSketchSlideMapper {
    pub query_present: Vec<u8>,
    pub ref_count: Vec<u32>,
    pub union_bits: SummaryBitSet,
    pub pivot_idx: usize,
    pub shared: usize,
}

impl BitsetBottomSketchSlideMapper {
    pub fn new(query_hashes: &[HashValue], coords: &[HashValue]) -> Self {
        debug_assert!(!query_hashes.is_empty());
        let mut query_present = vec![0u8; coords.len()];
        let ref_count = vec![0u32; coords.len()];
        let mut union_bits = SummaryBitSet::new(coords.len());

        for &hash in query_hashes {
            let idx = coords
                .binary_search(&hash)
                .expect("query hash must be in coordinate universe");
            query_present[idx] = 1;
            union_bits.set(idx);
        }

        let pivot_idx = coords
            .binary_search(&query_hashes[query_hashes.len() - 1])
            .expect("query pivot must be in coordinate universe");

        Self {
            query_present,
            ref_count,
            union_bits,
            pivot_idx,
            shared: 0,
        }
    }

    #[inline]
    pub fn shared(&self) -> usize {
        self.shared
    }

    #[inline]
    pub fn insert_ref(&mut self, idx: usize) {
        if self.ref_count[idx] > 0 {
            self.ref_count[idx] += 1;
            return;
        }

        self.ref_count[idx] = 1;
        if self.query_present[idx] != 0 {
            if idx <= self.pivot_idx {
                self.shared += 1;
            }
        } else {
            self.union_bits.set(idx);
            if idx <= self.pivot_idx {
                if self.is_shared_index(self.pivot_idx) {
                    self.shared = self.shared.saturating_sub(1);
                }
                self.pivot_idx = self
                    .union_bits
                    .prev_set_before(self.pivot_idx)
                    .expect("bottom-k pivot must have a predecessor after insert");
            }
        }
    }

    #[inline]
    pub fn delete_ref(&mut self, idx: usize) {
        let Some(next_count) = self.ref_count[idx].checked_sub(1) else {
            return;
        };
        self.ref_count[idx] = next_count;
        if next_count > 0 {
            return;
        }

        if self.query_present[idx] != 0 {
            if idx <= self.pivot_idx {
                self.shared = self.shared.saturating_sub(1);
            }
        } else {
            self.union_bits.clear(idx);
            if idx <= self.pivot_idx {
                self.pivot_idx = self
                    .union_bits
                    .next_set_after(self.pivot_idx)
                    .expect("bottom-k pivot must have a successor after delete");
                if self.is_shared_index(self.pivot_idx) {
                    self.shared += 1;
                }
            }
        }
    }

    #[inline]
    fn is_shared_index(&self, idx: usize) -> bool {
        self.query_present[idx] != 0 && self.ref_count[idx] > 0
    }
}
