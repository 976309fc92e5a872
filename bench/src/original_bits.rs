//! `SummaryBitSet` as it stands in TurboANI's `src/sliding_mapper.rs` (commit 286f43e3a4, MIT; the whole file is
//! `oracle/turboani/sliding_mapper.rs`). Carried over as it is, but for two things: visibility is `pub`, and its fields too, so that the benchmark
//! lends the same words to the proved functions.

#[derive(Debug)]
pub struct SummaryBitSet {
    pub words: Vec<u64>,
    pub summary: Vec<u64>,
}

impl SummaryBitSet {
    pub fn new(len: usize) -> Self {
        let word_count = len.div_ceil(64);
        let summary_count = word_count.div_ceil(64);
        Self {
            words: vec![0; word_count],
            summary: vec![0; summary_count],
        }
    }

    #[inline]
    pub fn set(&mut self, index: usize) {
        let word_idx = index >> 6;
        let mask = 1u64 << (index & 63);
        let old = self.words[word_idx];
        self.words[word_idx] = old | mask;
        if old == 0 {
            self.summary[word_idx >> 6] |= 1u64 << (word_idx & 63);
        }
    }

    #[inline]
    pub fn clear(&mut self, index: usize) {
        let word_idx = index >> 6;
        let mask = 1u64 << (index & 63);
        self.words[word_idx] &= !mask;
        if self.words[word_idx] == 0 {
            self.summary[word_idx >> 6] &= !(1u64 << (word_idx & 63));
        }
    }

    #[inline]
    pub fn prev_set_before(&self, index: usize) -> Option<usize> {
        if index == 0 {
            return None;
        }

        let target = index - 1;
        let mut word_idx = target >> 6;
        let bit = target & 63;
        let mask = if bit == 63 {
            u64::MAX
        } else {
            (1u64 << (bit + 1)) - 1
        };
        let word = self.words[word_idx] & mask;
        if word != 0 {
            return Some((word_idx << 6) + highest_set_bit(word));
        }

        if word_idx == 0 {
            return None;
        }
        word_idx -= 1;
        let mut summary_idx = word_idx >> 6;
        let summary_bit = word_idx & 63;
        let summary_mask = if summary_bit == 63 {
            u64::MAX
        } else {
            (1u64 << (summary_bit + 1)) - 1
        };
        let mut summary_word = self.summary[summary_idx] & summary_mask;

        loop {
            if summary_word != 0 {
                let nonzero_word_idx = (summary_idx << 6) + highest_set_bit(summary_word);
                let word = self.words[nonzero_word_idx];
                return Some((nonzero_word_idx << 6) + highest_set_bit(word));
            }
            if summary_idx == 0 {
                return None;
            }
            summary_idx -= 1;
            summary_word = self.summary[summary_idx];
        }
    }

    #[inline]
    pub fn next_set_after(&self, index: usize) -> Option<usize> {
        let target = index + 1;
        let mut word_idx = target >> 6;
        if word_idx >= self.words.len() {
            return None;
        }

        let bit = target & 63;
        let word = self.words[word_idx] & (u64::MAX << bit);
        if word != 0 {
            return Some((word_idx << 6) + word.trailing_zeros() as usize);
        }

        word_idx += 1;
        if word_idx >= self.words.len() {
            return None;
        }

        let mut summary_idx = word_idx >> 6;
        let summary_bit = word_idx & 63;
        let mut summary_word = self.summary[summary_idx] & (u64::MAX << summary_bit);

        loop {
            if summary_word != 0 {
                let nonzero_word_idx = (summary_idx << 6) + summary_word.trailing_zeros() as usize;
                let word = self.words[nonzero_word_idx];
                return Some((nonzero_word_idx << 6) + word.trailing_zeros() as usize);
            }
            summary_idx += 1;
            if summary_idx >= self.summary.len() {
                return None;
            }
            summary_word = self.summary[summary_idx];
        }
    }
}

#[inline]
fn highest_set_bit(word: u64) -> usize {
    63 - word.leading_zeros() as usize
}
