//! The script call.

use crate::ffi;
use crate::Refusal;

/// What a script is run on. Hashes are any `u64`.
#[derive(Clone, Copy, Debug)]
pub struct Script<'a> {
    /// The query's hashes, strictly ascending, 1 to 4,096 of them, each among the coordinates.
    pub query: &'a [u64],
    /// All hashes that the script may touch, strictly ascending, 1 to 65,536. A coordinate number is an index into them.
    pub coords: &'a [u64],
    /// For each step the coordinate number of its hash; at most 65,536 steps.
    pub indexes: &'a [u32],
    /// For each step 1 to insert its hash or 0 to delete it; deleting a hash that is not active does nothing.
    pub kinds: &'a [u8],
}

/// How long the lent slices of a script must be. Longer ones do no harm: past these counts nothing is read or written.
#[derive(Clone, Copy, Debug, PartialEq, Eq)]
pub struct ScriptNeeds {
    /// Entries of [`ScriptWork::counts`]: one for each coordinate.
    pub counts: usize,
    /// Entries of [`ScriptWork::words`]: one for 64 coordinates.
    pub words: usize,
    /// Entries of [`ScriptWork::summary`]: one for 64 words.
    pub summary: usize,
    /// Entries of each of the two output slices: one for each step.
    pub outputs: usize,
}

impl ScriptNeeds {
    /// The needs of a script with this many coordinates and steps.
    pub fn of(coords: usize, steps: usize) -> Self {
        let words = coords.div_ceil(64);
        ScriptNeeds {
            counts: coords,
            words,
            summary: words.div_ceil(64),
            outputs: steps,
        }
    }
}

/// A script's work memory. What it holds before does not matter; afterwards the needed part of each slice is zero.
#[derive(Debug)]
pub struct ScriptWork<'a> {
    pub counts: &'a mut [u32],
    pub words: &'a mut [u64],
    pub summary: &'a mut [u64],
}

/// Pivot and shared count after the last step; without steps, the coordinate number of the query's last hash, and 0.
#[derive(Clone, Copy, Debug, PartialEq, Eq)]
pub struct Final {
    /// The coordinate number of the k-th smallest hash of the union of query and active hashes, k being the query's size.
    pub pivot: u32,
    /// How many coordinates through the pivot are in the query and active.
    pub shared: u32,
}

/// Runs a script of inserts and deletes over the bottom-k sketch of the union, starting with no active hash, and answers pivot and shared
/// count after each step: entry `j` of `pivots` and of `shared` is the pair after step `j`, and entries past the steps stay as they were.
///
/// # Errors
///
/// Refusals 1, 3, 4, 5, 6 and 8 (see [`Refusal`]). Within 6 the query is looked at first, then the steps in order, a step's index before
/// its kind. A refused call has changed no slice.
///
/// # Examples
///
/// ```
/// use kelonbaro::{script, Final, Script, ScriptNeeds, ScriptWork};
///
/// let coords = [10, 20, 30, 40, 50];
/// let call = Script { query: &[20, 40], coords: &coords, indexes: &[1, 0, 3], kinds: &[1, 1, 1] };
/// let needs = ScriptNeeds::of(call.coords.len(), call.indexes.len());
/// let (mut counts, mut words, mut summary) = (vec![0; needs.counts], vec![0; needs.words], vec![0; needs.summary]);
/// let mut work = ScriptWork { counts: &mut counts, words: &mut words, summary: &mut summary };
/// let (mut pivots, mut shared) = (vec![0; needs.outputs], vec![0; needs.outputs]);
///
/// let last = script(call, &mut work, &mut pivots, &mut shared)?;
/// assert_eq!(last, Final { pivot: 1, shared: 1 });
/// assert_eq!((pivots, shared), (vec![3, 1, 1], vec![1, 1, 1]));
///
/// let refused = script(Script { kinds: &[1, 1, 2], ..call }, &mut work, &mut [0; 3], &mut [0; 3]).unwrap_err();
/// assert_eq!((refused.number, refused.place), (6, 2));
/// # Ok::<(), kelonbaro::Refusal>(())
/// ```
pub fn script(
    call: Script<'_>,
    work: &mut ScriptWork<'_>,
    pivots: &mut [u32],
    shared: &mut [u32],
) -> Result<Final, Refusal> {
    // SAFETY: each address goes with the length of its own slice. The slices that are written are borrowed mutably, so they overlap with no
    // other, and they live past the call, which keeps no address.
    let told = unsafe {
        ffi::kelonbaro_script(
            call.query.as_ptr(),
            call.query.len(),
            call.coords.as_ptr(),
            call.coords.len(),
            call.indexes.as_ptr(),
            call.indexes.len(),
            call.kinds.as_ptr(),
            call.kinds.len(),
            work.counts.as_mut_ptr(),
            work.counts.len(),
            work.words.as_mut_ptr(),
            work.words.len(),
            work.summary.as_mut_ptr(),
            work.summary.len(),
            pivots.as_mut_ptr(),
            pivots.len(),
            shared.as_mut_ptr(),
            shared.len(),
        )
    };
    match told.number {
        0 => Ok(Final {
            pivot: told.pivot,
            shared: told.shared,
        }),
        number => Err(Refusal {
            number: number as u8,
            place: told.place,
        }),
    }
}
