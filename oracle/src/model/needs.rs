//! The stated need of every lent buffer, as the rooms that are exactly enough.

use crate::call::{FinderRoom, Mode, ScriptRoom, SweepRoom};

/// One bit for each of m.
fn words(m: usize) -> usize {
    m.div_ceil(64)
}

pub fn script(coords: usize, steps: usize) -> ScriptRoom {
    ScriptRoom {
        counts: coords,
        words: words(coords),
        summary: words(words(coords)),
        pivots: steps,
        shared: steps,
    }
}

/// m = query hashes + all items handed in; event keys are twice the items, in the interval sweep only.
pub fn sweep(mode: Mode, query: usize, items: usize) -> SweepRoom {
    let m = query + items;
    SweepRoom {
        hashes: m,
        counts: m,
        items: m,
        words: words(m),
        summary: words(words(m)),
        events: match mode {
            Mode::Minimizer => 0,
            Mode::Interval => 2 * items,
        },
    }
}

/// One key and one record per hit; the interval finder has a second list of keys.
pub fn finder(mode: Mode, hits: usize) -> FinderRoom {
    FinderRoom {
        keys: hits,
        end_keys: match mode {
            Mode::Minimizer => 0,
            Mode::Interval => hits,
        },
        contigs: hits,
        starts: hits,
        ends: hits,
    }
}
