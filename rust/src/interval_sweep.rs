//! The interval sweep.

use crate::ffi;
use crate::sweep::{answer, Range, Settings, SweepAnswer, SweepWork};
use crate::Refusal;

/// What an interval sweep is run on. Hashes are any `u64`.
#[derive(Clone, Copy, Debug)]
pub struct IntervalSweep<'a> {
    pub settings: Settings,
    /// Where the fragment may start.
    pub range: Range,
    /// The query's hashes, strictly ascending, at most 4,096.
    pub query: &'a [u64],
    /// The hash of each interval of the contig, or of its neighbourhood of the range; at most 61,440.
    pub hashes: &'a [u64],
    /// The first position at which each is active, never descending.
    pub starts: &'a [u32],
    /// The position at which each ceases to be. An end at or before its start is taken, and lowers its hash's count when it is met.
    pub ends: &'a [u32],
    /// The distance table's identities, by shared count: at least one more than the query has hashes.
    pub identities: &'a [f64],
    /// Their upper bounds, as many.
    pub uppers: &'a [f64],
    /// A place whose upper bound lies below this is none; a NaN rejects nothing.
    pub minimum: f64,
}

/// Walks the range from its start to its end, and places the fragment where the active intervals share most of the k smallest hashes of
/// their union with the query, k being the query's size. Taken are the intervals that reach into the range and start at most the fragment's
/// number of k-mers before it.
///
/// There is no place where the fragment is shorter than a k-mer, the query is empty, the range is reversed, no interval is taken, or the best
/// estimate's upper bound lies below the minimum. Where intervals are taken and nothing is shared, the best shared count is 0, and its estimate decides.
///
/// `events` needs two entries for each interval ([`SweepNeeds::events`](crate::SweepNeeds::events)); it is work memory as `work` is.
///
/// # Errors
///
/// Refusals 1, 2, 3, 4, 5, 7 and 8 (see [`Refusal`]), also where there would be no place. A refused call has changed no slice.
///
/// # Examples
///
/// ```
/// use kelonbaro::{interval_sweep, IntervalSweep, Range, Settings, Stats, SweepNeeds, SweepWork};
///
/// let table = [0.0, 50.0, 100.0];
/// let call = IntervalSweep {
///     settings: Settings { kmer: 3, length: 10 },
///     range: Range { start: 1, end: 9 },
///     query: &[20, 40],
///     hashes: &[20, 30, 40],
///     starts: &[0, 2, 4],
///     ends: &[6, 9, 8],
///     identities: &table,
///     uppers: &table,
///     minimum: 0.0,
/// };
/// let needs = SweepNeeds::of(call.query.len(), call.hashes.len());
/// let (mut hashes, mut counts, mut coords) = (vec![0; needs.hashes], vec![0; needs.counts], vec![0; needs.coords]);
/// let (mut words, mut summary, mut events) = (vec![0; needs.words], vec![0; needs.summary], vec![0; needs.events]);
/// let mut work = SweepWork { hashes: &mut hashes, counts: &mut counts, coords: &mut coords, words: &mut words, summary: &mut summary };
///
/// let answer = interval_sweep(call, &mut work, &mut events)?;
/// let place = answer.place.expect("20 is active at the range's start");
/// assert_eq!((place.start, place.end, place.shared, place.size), (3, 12, 1, 2));
/// assert_eq!(answer.stats, Stats { windows: 9, coords: 3, items: 3 });
///
/// let refused = interval_sweep(call, &mut work, &mut events[1..]).unwrap_err();
/// assert_eq!((refused.number, refused.place), (8, 0));
/// # Ok::<(), kelonbaro::Refusal>(())
/// ```
pub fn interval_sweep(
    call: IntervalSweep<'_>,
    work: &mut SweepWork<'_>,
    events: &mut [u64],
) -> Result<SweepAnswer, Refusal> {
    // SAFETY: each address goes with the length of its own slice. The slices that are written are borrowed mutably, so they overlap with no
    // other, and they live past the call, which keeps no address.
    answer(unsafe {
        ffi::kelonbaro_interval_sweep(
            call.settings.kmer,
            call.settings.length,
            call.range.start,
            call.range.end,
            call.query.as_ptr(),
            call.query.len(),
            call.hashes.as_ptr(),
            call.hashes.len(),
            call.starts.as_ptr(),
            call.starts.len(),
            call.ends.as_ptr(),
            call.ends.len(),
            call.identities.as_ptr(),
            call.identities.len(),
            call.uppers.as_ptr(),
            call.uppers.len(),
            call.minimum,
            work.hashes.as_mut_ptr(),
            work.hashes.len(),
            work.counts.as_mut_ptr(),
            work.counts.len(),
            work.coords.as_mut_ptr(),
            work.coords.len(),
            work.words.as_mut_ptr(),
            work.words.len(),
            work.summary.as_mut_ptr(),
            work.summary.len(),
            events.as_mut_ptr(),
            events.len(),
        )
    })
}
