//! The minimizer sweep.

use crate::ffi;
use crate::sweep::{answer, Range, Settings, SweepAnswer, SweepWork};
use crate::Refusal;

/// What a minimizer sweep is run on. Hashes are any `u64`.
#[derive(Clone, Copy, Debug)]
pub struct MinimizerSweep<'a> {
    pub settings: Settings,
    /// How many neighbouring k-mers a minimizer is the least of, at least 1.
    pub window: u32,
    /// Where the fragment may start.
    pub range: Range,
    /// The query's hashes, strictly ascending, at most 4,096.
    pub query: &'a [u64],
    /// The hash of each minimizer of the contig, or of its neighbourhood of the range; at most 61,440.
    pub hashes: &'a [u64],
    /// The position of each, never descending.
    pub positions: &'a [u32],
    /// The distance table's identities, by shared count: at least one more than the query has hashes.
    pub identities: &'a [f64],
    /// Their upper bounds, as many.
    pub uppers: &'a [f64],
    /// A place whose upper bound lies below this is none; a NaN rejects nothing.
    pub minimum: f64,
}

/// Slides a window of the fragment's width over the minimizers, and places the fragment where the window shares most of the k smallest
/// hashes of its union with the query, k being the query's size. Minimizers from the range's start to the fragment's length past its end are taken.
///
/// There is no place where the fragment is too short for one window, the query is empty, no minimizer is taken, none of the windows shares a
/// hash, or the best estimate's upper bound lies below the minimum.
///
/// # Errors
///
/// Refusals 1, 2, 3, 4, 5, 7 and 8 (see [`Refusal`]), also where there would be no place. A refused call has changed no slice.
///
/// # Examples
///
/// ```
/// use kelonbaro::{minimizer_sweep, MinimizerSweep, Range, Settings, Stats, SweepNeeds, SweepWork};
///
/// let table = [0.0, 50.0, 100.0];
/// let call = MinimizerSweep {
///     settings: Settings { kmer: 3, length: 10 },
///     window: 2,
///     range: Range { start: 0, end: 11 },
///     query: &[20, 40],
///     hashes: &[20, 30, 40, 20, 50],
///     positions: &[0, 4, 8, 12, 20],
///     identities: &table,
///     uppers: &table,
///     minimum: 0.0,
/// };
/// let needs = SweepNeeds::of(call.query.len(), call.hashes.len());
/// let (mut hashes, mut counts, mut coords) = (vec![0; needs.hashes], vec![0; needs.counts], vec![0; needs.coords]);
/// let (mut words, mut summary) = (vec![0; needs.words], vec![0; needs.summary]);
/// let mut work = SweepWork { hashes: &mut hashes, counts: &mut counts, coords: &mut coords, words: &mut words, summary: &mut summary };
///
/// let answer = minimizer_sweep(call, &mut work)?;
/// let place = answer.place.expect("both query hashes lie in one window");
/// assert_eq!((place.start, place.end, place.shared, place.size), (8, 17, 2, 2));
/// assert_eq!(place.estimate.identity, 100.0);
/// assert_eq!(answer.stats, Stats { windows: 5, coords: 4, items: 5 });
///
/// let refused = minimizer_sweep(MinimizerSweep { window: 0, ..call }, &mut work).unwrap_err();
/// assert_eq!((refused.number, refused.place), (2, 0));
/// # Ok::<(), kelonbaro::Refusal>(())
/// ```
pub fn minimizer_sweep(
    call: MinimizerSweep<'_>,
    work: &mut SweepWork<'_>,
) -> Result<SweepAnswer, Refusal> {
    // SAFETY: each address goes with the length of its own slice. The slices that are written are borrowed mutably, so they overlap with no
    // other, and they live past the call, which keeps no address.
    answer(unsafe {
        ffi::kelonbaro_minimizer_sweep(
            call.settings.kmer,
            call.settings.length,
            call.window,
            call.range.start,
            call.range.end,
            call.query.as_ptr(),
            call.query.len(),
            call.hashes.as_ptr(),
            call.hashes.len(),
            call.positions.as_ptr(),
            call.positions.len(),
            call.identities.as_ptr(),
            call.identities.len(),
            call.uppers.as_ptr(),
            call.uppers.len(),
            call.minimum,
            work.hashes.as_mut_ptr(),
            work.hashes.len(),
            work.counts.as_mut_ptr(),
            work.counts.len(),
            work.coords.as_mut_ptr(),
            work.coords.len(),
            work.words.as_mut_ptr(),
            work.words.len(),
            work.summary.as_mut_ptr(),
            work.summary.len(),
        )
    })
}
