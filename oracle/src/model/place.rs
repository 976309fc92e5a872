//! From the best score to the answer: place, estimate and identity test.

use crate::call::{Best, Place, Stats, SweepAnswer, SweepCall};

/// The place of the best, unless its upper bound lies below the minimum identity; a NaN never rejects.
pub fn answer(call: &SweepCall, best: Option<Best>, stats: Stats) -> SweepAnswer {
    match best {
        None => SweepAnswer::Nothing(stats),
        Some(best) if call.uppers[best.shared as usize] < call.minimum => {
            SweepAnswer::Nothing(stats)
        }
        Some(best) => SweepAnswer::Placed(place(call, best), stats),
    }
}

/// The start is (first + last)/2 rounded down; the end is start + length − 1.
fn place(call: &SweepCall, best: Best) -> Place {
    let start = (best.first + best.last) / 2;
    Place {
        start,
        end: start + u64::from(call.length) - 1,
        shared: best.shared,
        size: call.query.len() as u32,
        identity: call.identities[best.shared as usize],
        upper: call.uppers[best.shared as usize],
    }
}
