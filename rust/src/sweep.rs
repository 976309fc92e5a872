//! What both sweeps share: the fragment, the range, the answer and the work memory.

use crate::ffi;
use crate::Refusal;

/// What a sweep is told of the fragment.
#[derive(Clone, Copy, Debug, PartialEq, Eq)]
pub struct Settings {
    /// The k-mer size, at least 1.
    pub kmer: u32,
    /// The fragment's length in bases.
    pub length: u32,
}

/// A candidate range of reference positions, both ends included.
#[derive(Clone, Copy, Debug, PartialEq, Eq)]
pub struct Range {
    pub start: u32,
    pub end: u32,
}

/// An identity and its upper bound, in per cent: an entry of the distance table.
#[derive(Clone, Copy, Debug, PartialEq)]
pub struct Estimate {
    pub identity: f64,
    pub upper: f64,
}

/// Where the fragment was placed.
#[derive(Clone, Copy, Debug, PartialEq)]
pub struct Place {
    /// The first reference base that the fragment covers: the middle, rounded down, of the first and the last best position.
    pub start: u64,
    /// The last base that it covers; start and length may pass 32 bits together.
    pub end: u64,
    /// How many of the query's hashes are shared there.
    pub shared: u32,
    /// How many hashes the query has.
    pub size: u32,
    /// The table's entry for that shared count.
    pub estimate: Estimate,
}

/// What a sweep counted. All are 0 where no place was possible before any item was looked at.
#[derive(Clone, Copy, Debug, Default, PartialEq, Eq)]
pub struct Stats {
    /// How many windows were scored; in an interval sweep, how many positions the range has.
    pub windows: u64,
    /// How many different hashes the query and the items taken have together.
    pub coords: u32,
    /// How many of the items were taken.
    pub items: u32,
}

/// The answer of a sweep that was not refused.
#[derive(Clone, Copy, Debug, PartialEq)]
pub struct SweepAnswer {
    /// Where the fragment was placed, if anywhere.
    pub place: Option<Place>,
    pub stats: Stats,
}

/// How long the lent slices of a sweep must be. Longer ones do no harm: past these counts nothing is read or written.
#[derive(Clone, Copy, Debug, PartialEq, Eq)]
pub struct SweepNeeds {
    /// Entries of [`SweepWork::hashes`]: one for each query hash and item.
    pub hashes: usize,
    /// Entries of [`SweepWork::counts`], as many.
    pub counts: usize,
    /// Entries of [`SweepWork::coords`], as many.
    pub coords: usize,
    /// Entries of [`SweepWork::words`]: one for 64 of them.
    pub words: usize,
    /// Entries of [`SweepWork::summary`]: one for 64 words.
    pub summary: usize,
    /// Event keys of an interval sweep: two for each item. A minimizer sweep has none.
    pub events: usize,
}

impl SweepNeeds {
    /// The needs of a sweep with this many query hashes and items. All items that are handed in count, also those that are not taken.
    pub fn of(query: usize, items: usize) -> Self {
        let most = query + items;
        let words = most.div_ceil(64);
        SweepNeeds {
            hashes: most,
            counts: most,
            coords: most,
            words,
            summary: words.div_ceil(64),
            events: 2 * items,
        }
    }
}

/// A sweep's work memory. What it holds before does not matter; afterwards the needed part of each slice is zero.
#[derive(Debug)]
pub struct SweepWork<'a> {
    pub hashes: &'a mut [u64],
    pub counts: &'a mut [u32],
    pub coords: &'a mut [u32],
    pub words: &'a mut [u64],
    pub summary: &'a mut [u64],
}

/// The answer that the C struct tells.
pub(crate) fn answer(told: ffi::SweepOut) -> Result<SweepAnswer, Refusal> {
    if told.number != 0 {
        return Err(Refusal {
            number: told.number as u8,
            place: told.place,
        });
    }
    let place = (told.found != 0).then_some(Place {
        start: told.start,
        end: told.end,
        shared: told.shared,
        size: told.size,
        estimate: Estimate {
            identity: told.identity,
            upper: told.upper,
        },
    });
    let stats = Stats {
        windows: told.windows,
        coords: told.coords,
        items: told.items,
    };
    Ok(SweepAnswer { place, stats })
}
