//! The two candidate finders.

use crate::ffi;
use crate::Refusal;

/// What a minimizer finder is run on. The hits of one query hash after those of another; within and between them the order is free.
#[derive(Clone, Copy, Debug)]
pub struct MinimizerFinder<'a> {
    /// For each query hash that was looked up how many hits it has; at most 4,096 groups.
    pub groups: &'a [u32],
    /// The contig of each hit; at most 61,440 hits.
    pub contigs: &'a [u32],
    /// The position of each hit.
    pub positions: &'a [u32],
    /// How many neighbouring hits make a candidate, 1 to 2^31 − 1.
    pub minimum: u32,
    /// The fragment's length in bases.
    pub length: u32,
    /// A group is used only if it is shorter than this: hashes that are too frequent say little.
    pub threshold: u64,
}

/// What an interval finder is run on.
#[derive(Clone, Copy, Debug)]
pub struct IntervalFinder<'a> {
    /// For each query hash that was looked up how many intervals it has; at most 4,096 groups.
    pub groups: &'a [u32],
    /// The contig of each interval; at most 61,440 intervals.
    pub contigs: &'a [u32],
    /// The first position at which each is active.
    pub starts: &'a [u32],
    /// The position at which each ceases to be. An interval that ends at or before its start counts among the seed hits and covers nothing.
    pub ends: &'a [u32],
    /// How many intervals must cover a candidate's positions, 1 to 2^31 − 1.
    pub minimum: u32,
    /// A group is used only if it is shorter than this.
    pub threshold: u64,
}

/// A range of positions where a fragment may start, both ends included.
#[derive(Clone, Copy, Debug, PartialEq, Eq)]
pub struct Candidate {
    pub contig: u32,
    pub start: u32,
    pub end: u32,
}

/// The three slices that a finder fills, each with at least one entry for each hit. Candidate `i` stands at index `i` of all three.
#[derive(Debug)]
pub struct Candidates<'a> {
    pub contigs: &'a mut [u32],
    pub starts: &'a mut [u32],
    pub ends: &'a mut [u32],
}

impl Candidates<'_> {
    /// The first `count` candidates, as a finder has listed them.
    ///
    /// # Panics
    ///
    /// Where a slice is shorter than `count`; a finder's own count never is longer.
    pub fn first(&self, count: u32) -> impl Iterator<Item = Candidate> + '_ {
        let count = count as usize;
        let (contigs, starts) = (&self.contigs[..count], &self.starts[..count]);
        let bounds = starts.iter().zip(&self.ends[..count]);
        contigs
            .iter()
            .zip(bounds)
            .map(|(&contig, (&start, &end))| Candidate { contig, start, end })
    }
}

/// The answer of a finder that was not refused.
#[derive(Clone, Copy, Debug, PartialEq, Eq)]
pub struct FinderAnswer {
    /// How many candidates are listed.
    pub count: u32,
    /// The summed length of the groups that were used.
    pub seed_hits: u32,
}

fn answer(told: ffi::FinderOut) -> Result<FinderAnswer, Refusal> {
    match told.number {
        0 => Ok(FinderAnswer {
            count: told.count,
            seed_hits: told.hits,
        }),
        number => Err(Refusal {
            number: number as u8,
            place: told.place,
        }),
    }
}

/// Lists where a fragment may start: wherever the minimum of neighbouring hits of one contig lie within the fragment's length, the starts
/// that cover them all. Ranges that share a position are joined; ranges that only touch are not. They come by contig, then by start.
///
/// `keys` is work memory, one entry for each hit: what it holds before does not matter, and afterwards those are zero. Entries of the output
/// past the count stay as they were.
///
/// # Errors
///
/// Refusals 1, 2, 3 and 8 (see [`Refusal`]). A refused call has changed no slice.
///
/// # Examples
///
/// ```
/// use kelonbaro::{minimizer_finder, Candidate, Candidates, FinderAnswer, MinimizerFinder};
///
/// let call = MinimizerFinder { groups: &[2, 1], contigs: &[0, 0, 0], positions: &[15, 5, 8], minimum: 2, length: 10, threshold: u64::MAX };
/// let (mut contigs, mut starts, mut ends) = ([0; 3], [0; 3], [0; 3]);
/// let mut out = Candidates { contigs: &mut contigs, starts: &mut starts, ends: &mut ends };
///
/// let answer = minimizer_finder(call, &mut [0; 3], &mut out)?;
/// assert_eq!(answer, FinderAnswer { count: 2, seed_hits: 3 });
/// let listed: Vec<Candidate> = out.first(answer.count).collect();
/// assert_eq!(listed, [Candidate { contig: 0, start: 0, end: 5 }, Candidate { contig: 0, start: 6, end: 8 }]);
///
/// let refused = minimizer_finder(MinimizerFinder { groups: &[2], ..call }, &mut [0; 3], &mut out).unwrap_err();
/// assert_eq!((refused.number, refused.place), (3, 0));
/// # Ok::<(), kelonbaro::Refusal>(())
/// ```
pub fn minimizer_finder(
    call: MinimizerFinder<'_>,
    keys: &mut [u64],
    out: &mut Candidates<'_>,
) -> Result<FinderAnswer, Refusal> {
    // SAFETY: each address goes with the length of its own slice. The slices that are written are borrowed mutably, so they overlap with no
    // other, and they live past the call, which keeps no address.
    answer(unsafe {
        ffi::kelonbaro_minimizer_finder(
            call.groups.as_ptr(),
            call.groups.len(),
            call.contigs.as_ptr(),
            call.contigs.len(),
            call.positions.as_ptr(),
            call.positions.len(),
            call.minimum,
            call.length,
            call.threshold,
            keys.as_mut_ptr(),
            keys.len(),
            out.contigs.as_mut_ptr(),
            out.contigs.len(),
            out.starts.as_mut_ptr(),
            out.starts.len(),
            out.ends.as_mut_ptr(),
            out.ends.len(),
        )
    })
}

/// Lists where a fragment may start: the ranges of positions that at least the minimum of intervals cover. Ranges that touch are joined.
/// They come by contig, then by start.
///
/// `start_keys` and `end_keys` are work memory, one entry for each interval: what they hold before does not matter, and afterwards those are
/// zero. Entries of the output past the count stay as they were.
///
/// # Errors
///
/// Refusals 1, 2, 3 and 8 (see [`Refusal`]). A refused call has changed no slice.
///
/// # Examples
///
/// ```
/// use kelonbaro::{interval_finder, Candidate, Candidates, FinderAnswer, IntervalFinder};
///
/// let call = IntervalFinder { groups: &[3], contigs: &[0, 0, 0], starts: &[2, 4, 6], ends: &[6, 8, 9], minimum: 2, threshold: u64::MAX };
/// let (mut contigs, mut starts, mut ends) = ([0; 3], [0; 3], [0; 3]);
/// let mut out = Candidates { contigs: &mut contigs, starts: &mut starts, ends: &mut ends };
///
/// let answer = interval_finder(call, &mut [0; 3], &mut [0; 3], &mut out)?;
/// assert_eq!(answer, FinderAnswer { count: 1, seed_hits: 3 });
/// let listed: Vec<Candidate> = out.first(answer.count).collect();
/// assert_eq!(listed, [Candidate { contig: 0, start: 4, end: 7 }]);
///
/// let refused = interval_finder(IntervalFinder { minimum: 0, ..call }, &mut [0; 3], &mut [0; 3], &mut out).unwrap_err();
/// assert_eq!((refused.number, refused.place), (2, 0));
/// # Ok::<(), kelonbaro::Refusal>(())
/// ```
pub fn interval_finder(
    call: IntervalFinder<'_>,
    start_keys: &mut [u64],
    end_keys: &mut [u64],
    out: &mut Candidates<'_>,
) -> Result<FinderAnswer, Refusal> {
    // SAFETY: as for the minimizer finder.
    answer(unsafe {
        ffi::kelonbaro_interval_finder(
            call.groups.as_ptr(),
            call.groups.len(),
            call.contigs.as_ptr(),
            call.contigs.len(),
            call.starts.as_ptr(),
            call.starts.len(),
            call.ends.as_ptr(),
            call.ends.len(),
            call.minimum,
            call.threshold,
            start_keys.as_mut_ptr(),
            start_keys.len(),
            end_keys.as_mut_ptr(),
            end_keys.len(),
            out.contigs.as_mut_ptr(),
            out.contigs.len(),
            out.starts.as_mut_ptr(),
            out.starts.len(),
            out.ends.as_mut_ptr(),
            out.ends.len(),
        )
    })
}
