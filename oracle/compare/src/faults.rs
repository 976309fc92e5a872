//! Tiny domains of lists of every kind, right and wrong, with slices exactly long enough and each one short by an entry: for the refusals,
//! their order and their places.

use oracle::call::{
    FinderCall, FinderRoom, Kind, Mode, ScriptCall, ScriptRoom, SweepCall, SweepRoom,
};
use oracle::case::Case;
use oracle::exhaust::Visit;
use oracle::model::needs;
use oracle::model::refusals::MOST_MINIMUM;

/// All cases of the domain of one call; answers whether every visit answered true.
pub fn all(kind: Kind, visit: Visit<'_>) -> bool {
    match kind {
        Kind::Script => scripts(visit),
        Kind::Sweep(mode) => sweeps(mode, visit),
        Kind::Finder(mode) => finders(mode, visit),
    }
}

/// Every list of at most `most` letters, in order of length.
fn lists<T: Copy>(letters: &[T], most: usize) -> Vec<Vec<T>> {
    let mut all = vec![vec![]];
    let mut from = 0;
    for _ in 0..most {
        let to = all.len();
        for i in from..to {
            for &letter in letters {
                let mut longer = all[i].clone();
                longer.push(letter);
                all.push(longer);
            }
        }
        from = to;
    }
    all
}

/// The lists that only an interval call has; a minimizer call has none of them.
fn only_intervals<T: Copy>(mode: Mode, letters: &[T], most: usize) -> Vec<Vec<T>> {
    match mode {
        Mode::Minimizer => vec![vec![]],
        Mode::Interval => lists(letters, most),
    }
}

/// Queries and coordinates over three hashes in any order, steps over indexes and kinds that are there and that are not, lists of unequal lengths.
fn scripts(visit: Visit<'_>) -> bool {
    let indexes = lists(&[0u32, 2, u32::MAX], 2);
    let kinds = lists(&[0u8, 1, 2], 2);
    lists(&[0u64, 1, u64::MAX], 2).iter().all(|query| {
        lists(&[0u64, 1, u64::MAX], 3).iter().all(|coords| {
            indexes.iter().all(|indexes| {
                kinds.iter().all(|kinds| {
                    let call = ScriptCall {
                        query: query.clone(),
                        coords: coords.clone(),
                        indexes: indexes.clone(),
                        kinds: kinds.clone(),
                        room: needs::script(coords.len(), indexes.len()),
                    };
                    script_rooms(call.room).iter().all(|&room| {
                        let call = call.clone();
                        visit(&Case::Script(ScriptCall { room, ..call }))
                    })
                })
            })
        })
    })
}

/// Queries over three hashes in any order; items whose lists differ in length or descend; tables of unequal lengths; sizes 0 and 1.
fn sweeps(mode: Mode, visit: Visit<'_>) -> bool {
    let hashes = lists(&[1u64, u64::MAX], 2);
    let starts = lists(&[0u32, 1, u32::MAX], 2);
    let ends = only_intervals(mode, &[0u32, 2], 2);
    lists(&[0u64, 1, u64::MAX], 2).iter().all(|query| {
        hashes.iter().all(|hashes| {
            starts.iter().all(|starts| {
                ends.iter().all(|ends| {
                    let call = SweepCall {
                        mode,
                        kmer: 1,
                        window: 1,
                        length: 2,
                        range_start: 0,
                        range_end: 3,
                        query: query.clone(),
                        hashes: hashes.clone(),
                        starts: starts.clone(),
                        ends: ends.clone(),
                        identities: vec![],
                        uppers: vec![],
                        minimum: 1.0,
                        room: needs::sweep(mode, query.len(), hashes.len()),
                    };
                    sweeps_of(call, visit)
                })
            })
        })
    })
}

fn sweeps_of(mut call: SweepCall, visit: Visit<'_>) -> bool {
    let exact = call.room;
    let sizes = [(0, 0), (0, 1), (1, 0), (1, 1)];
    let lengths = (0..16).map(|i| (i / 4, i % 4));
    let table = |length: usize| (0..length).map(|shared| shared as f64).collect();
    lengths.clone().all(|(identities, uppers)| {
        (call.identities, call.uppers) = (table(identities), table(uppers));
        sizes.iter().all(|&(kmer, window)| {
            (call.kmer, call.window) = (kmer, window);
            sweep_rooms(exact).iter().all(|&room| {
                call.room = room;
                visit(&Case::Sweep(call.clone()))
            })
        })
    })
}

/// Groups that sum to the hits and that do not, also past 32 bits; lists that differ in length; every bound of the minimum.
fn finders(mode: Mode, visit: Visit<'_>) -> bool {
    let contigs = lists(&[0u32, u32::MAX], 2);
    let starts = lists(&[0u32, 1, u32::MAX], 2);
    let ends = only_intervals(mode, &[1u32, u32::MAX], 2);
    lists(&[0u32, 1, 2, u32::MAX], 2).iter().all(|groups| {
        contigs.iter().all(|contigs| {
            starts.iter().all(|starts| {
                ends.iter().all(|ends| {
                    let call = FinderCall {
                        mode,
                        groups: groups.clone(),
                        contigs: contigs.clone(),
                        starts: starts.clone(),
                        ends: ends.clone(),
                        minimum: 1,
                        length: 2,
                        threshold: 0,
                        room: needs::finder(mode, contigs.len()),
                    };
                    finders_of(call, visit)
                })
            })
        })
    })
}

fn finders_of(mut call: FinderCall, visit: Visit<'_>) -> bool {
    let exact = call.room;
    let minima = [0, 1, 2, MOST_MINIMUM, MOST_MINIMUM + 1];
    minima.iter().all(|&minimum| {
        [0, 2, u64::MAX].iter().all(|&threshold| {
            (call.minimum, call.threshold) = (minimum, threshold);
            finder_rooms(exact).iter().all(|&room| {
                call.room = room;
                visit(&Case::Finder(call.clone()))
            })
        })
    })
}

/// The same with one of its numbers less, each in turn; a slice of length 0 cannot be shorter.
fn less(n: usize) -> usize {
    n.saturating_sub(1)
}

#[rustfmt::skip]
fn script_rooms(room: ScriptRoom) -> [ScriptRoom; 6] {
    [
        room,
        ScriptRoom { counts: less(room.counts), ..room },
        ScriptRoom { words: less(room.words), ..room },
        ScriptRoom { summary: less(room.summary), ..room },
        ScriptRoom { pivots: less(room.pivots), ..room },
        ScriptRoom { shared: less(room.shared), ..room },
    ]
}

#[rustfmt::skip]
fn sweep_rooms(room: SweepRoom) -> [SweepRoom; 7] {
    [
        room,
        SweepRoom { hashes: less(room.hashes), ..room },
        SweepRoom { counts: less(room.counts), ..room },
        SweepRoom { items: less(room.items), ..room },
        SweepRoom { words: less(room.words), ..room },
        SweepRoom { summary: less(room.summary), ..room },
        SweepRoom { events: less(room.events), ..room },
    ]
}

#[rustfmt::skip]
fn finder_rooms(room: FinderRoom) -> [FinderRoom; 6] {
    [
        room,
        FinderRoom { keys: less(room.keys), ..room },
        FinderRoom { end_keys: less(room.end_keys), ..room },
        FinderRoom { contigs: less(room.contigs), ..room },
        FinderRoom { starts: less(room.starts), ..room },
        FinderRoom { ends: less(room.ends), ..room },
    ]
}
