//! The model's refusals, held to document 01's table by hand: number, place, and which comes first. The original has no
//! refusals, so no differential run judges these.

use oracle::call::{FinderCall, Mode, Refusal, ScriptCall, SweepCall};
use oracle::model::{needs, refusals};

fn told(verdict: Result<(), Refusal>) -> Option<(u8, u32)> {
    verdict.err().map(|refusal| (refusal.number, refusal.place))
}

/// Three coordinates, two query hashes, two steps.
fn script() -> ScriptCall {
    ScriptCall {
        query: vec![10, 30],
        coords: vec![10, 20, 30],
        indexes: vec![1, 2],
        kinds: vec![1, 0],
        room: needs::script(3, 2),
    }
}

type ScriptRow = (fn(&mut ScriptCall), Option<(u8, u32)>);

#[test]
fn scripts() {
    let rows: Vec<ScriptRow> = vec![
        (|_| (), None),
        (|c| c.query = (0..4_097).collect(), Some((1, 0))),
        (|c| c.coords.clear(), Some((1, 0))),
        (|c| c.coords = (0..65_537).collect(), Some((1, 0))),
        (|c| c.indexes = vec![0; 65_537], Some((1, 0))),
        (|c| c.kinds = vec![0; 65_537], Some((1, 0))),
        (|c| c.kinds.truncate(1), Some((3, 0))),
        (|c| c.query.clear(), Some((4, 0))),
        (|c| c.query = vec![30, 10], Some((4, 1))),
        (|c| c.query = vec![10, 30, 30], Some((4, 2))),
        (|c| c.coords = vec![10, 30, 20], Some((5, 2))),
        (|c| c.coords = vec![10, 10, 30], Some((5, 1))),
        (|c| c.query = vec![10, 31], Some((6, 1))),
        (|c| c.query = vec![9, 31], Some((6, 0))),
        (|c| c.indexes = vec![1, 3], Some((6, 1))),
        (|c| c.kinds = vec![2, 0], Some((6, 0))),
        // The query comes before the steps.
        (
            |c| (c.query, c.indexes) = (vec![10, 31], vec![9, 9]),
            Some((6, 1)),
        ),
        (|c| c.room.counts = 2, Some((8, 0))),
        (|c| c.room.words = 0, Some((8, 0))),
        (|c| c.room.summary = 0, Some((8, 0))),
        (|c| c.room.pivots = 1, Some((8, 0))),
        (|c| c.room.shared = 1, Some((8, 0))),
        // Of several the lowest number.
        (|c| (c.room.shared, c.indexes[0]) = (1, 3), Some((6, 0))),
        (|c| (c.coords[1], c.indexes[0]) = (10, 3), Some((5, 1))),
        (|c| (c.coords[1], c.query[1]) = (10, 10), Some((4, 1))),
    ];
    for (i, (change, wanted)) in rows.into_iter().enumerate() {
        let mut call = script();
        change(&mut call);
        assert_eq!(told(refusals::script(&call)), wanted, "row {i}");
    }
}

/// Two query hashes, three items, three estimates.
fn sweep(mode: Mode) -> SweepCall {
    SweepCall {
        mode,
        kmer: 1,
        window: 1,
        length: 5,
        range_start: 0,
        range_end: 9,
        query: vec![10, 30],
        hashes: vec![10, 20, 30],
        starts: vec![0, 4, 4],
        ends: match mode {
            Mode::Minimizer => vec![],
            Mode::Interval => vec![3, 3, 3],
        },
        identities: vec![0.0; 3],
        uppers: vec![0.0; 3],
        minimum: 0.0,
        room: needs::sweep(mode, 2, 3),
    }
}

type SweepRow = (fn(&mut SweepCall), Option<(u8, u32)>);

fn check_sweeps(mode: Mode, rows: Vec<SweepRow>) {
    for (i, (change, wanted)) in rows.into_iter().enumerate() {
        let mut call = sweep(mode);
        change(&mut call);
        assert_eq!(told(refusals::sweep(&call)), wanted, "{mode:?} row {i}");
    }
}

#[test]
fn both_sweeps() {
    for mode in [Mode::Minimizer, Mode::Interval] {
        check_sweeps(
            mode,
            vec![
                (|_| (), None),
                (|c| c.query = (0..4_097).collect(), Some((1, 0))),
                (|c| c.hashes = vec![0; 61_441], Some((1, 0))),
                (|c| c.starts = vec![0; 61_441], Some((1, 0))),
                (|c| c.kmer = 0, Some((2, 0))),
                (|c| c.hashes.truncate(2), Some((3, 0))),
                (|c| c.starts.truncate(2), Some((3, 0))),
                (|c| c.uppers.truncate(2), Some((3, 0))),
                (|c| c.uppers.push(0.0), Some((3, 0))),
                (|c| c.query = vec![10, 10], Some((4, 1))),
                (|c| c.starts = vec![0, 4, 3], Some((5, 2))),
                (
                    |c| (c.identities, c.uppers) = (vec![0.0; 2], vec![0.0; 2]),
                    Some((7, 0)),
                ),
                (
                    |c| (c.identities, c.uppers) = (vec![0.0; 9], vec![0.0; 9]),
                    None,
                ),
                (|c| c.room.hashes = 4, Some((8, 0))),
                (|c| c.room.counts = 4, Some((8, 0))),
                (|c| c.room.items = 4, Some((8, 0))),
                (|c| c.room.words = 0, Some((8, 0))),
                (|c| c.room.summary = 0, Some((8, 0))),
                // An empty query is no refusal here; the table still wants one entry.
                (|c| c.query.clear(), None),
                (
                    |c| (c.query, c.identities, c.uppers) = (vec![], vec![], vec![]),
                    Some((7, 0)),
                ),
                // 7 and 8 come also where the answer would be an early none.
                (|c| (c.length, c.room.words) = (0, 0), Some((8, 0))),
                // Of several the lowest number.
                (|c| (c.kmer, c.starts) = (0, vec![0; 61_441]), Some((1, 0))),
                (|c| (c.query[1], c.starts[2]) = (10, 3), Some((4, 1))),
            ],
        );
    }
}

#[test]
fn what_one_sweep_takes_and_the_other_does_not() {
    check_sweeps(
        Mode::Minimizer,
        vec![
            (|c| c.window = 0, Some((2, 0))),
            (|c| c.ends = vec![0; 61_441], None),
            (|c| c.room.events = 0, None),
        ],
    );
    check_sweeps(
        Mode::Interval,
        vec![
            (|c| c.window = 0, None),
            (|c| c.ends = vec![0; 61_441], Some((1, 0))),
            (|c| c.ends.truncate(2), Some((3, 0))),
            (|c| c.room.events = 5, Some((8, 0))),
        ],
    );
}

/// Three hits in two groups.
fn finder(mode: Mode) -> FinderCall {
    FinderCall {
        mode,
        groups: vec![1, 2],
        contigs: vec![0, 1, 0],
        starts: vec![5, 3, 1],
        ends: match mode {
            Mode::Minimizer => vec![],
            Mode::Interval => vec![6, 3, 0],
        },
        minimum: 1,
        length: 0,
        threshold: 0,
        room: needs::finder(mode, 3),
    }
}

type FinderRow = (fn(&mut FinderCall), Option<(u8, u32)>);

fn check_finders(mode: Mode, rows: Vec<FinderRow>) {
    for (i, (change, wanted)) in rows.into_iter().enumerate() {
        let mut call = finder(mode);
        change(&mut call);
        assert_eq!(told(refusals::finder(&call)), wanted, "{mode:?} row {i}");
    }
}

#[test]
fn both_finders() {
    for mode in [Mode::Minimizer, Mode::Interval] {
        check_finders(
            mode,
            vec![
                (|_| (), None),
                (|c| c.groups = vec![0; 4_097], Some((1, 0))),
                (|c| c.contigs = vec![0; 61_441], Some((1, 0))),
                (|c| c.starts = vec![0; 61_441], Some((1, 0))),
                (|c| c.minimum = 0, Some((2, 0))),
                (|c| c.minimum = 2_147_483_647, None),
                (|c| c.minimum = 2_147_483_648, Some((2, 0))),
                (|c| c.starts.truncate(2), Some((3, 0))),
                (|c| c.groups = vec![1, 1], Some((3, 0))),
                // The sum is taken in 64 bits: in 32 it would be 3.
                (|c| c.groups = vec![3, u32::MAX, 1], Some((3, 0))),
                (|c| c.room.keys = 2, Some((8, 0))),
                (|c| c.room.contigs = 2, Some((8, 0))),
                (|c| c.room.starts = 2, Some((8, 0))),
                (|c| c.room.ends = 2, Some((8, 0))),
                (
                    |c| (c.minimum, c.groups) = (0, vec![0; 4_097]),
                    Some((1, 0)),
                ),
                (|c| (c.minimum, c.groups) = (0, vec![]), Some((2, 0))),
                (|c| (c.room.keys, c.groups) = (0, vec![]), Some((3, 0))),
            ],
        );
    }
}

#[test]
fn what_one_finder_takes_and_the_other_does_not() {
    check_finders(
        Mode::Minimizer,
        vec![
            (|c| c.ends = vec![0; 61_441], None),
            (|c| c.room.end_keys = 0, None),
        ],
    );
    check_finders(
        Mode::Interval,
        vec![
            (|c| c.ends = vec![0; 61_441], Some((1, 0))),
            (|c| c.ends.truncate(2), Some((3, 0))),
            (|c| c.room.end_keys = 2, Some((8, 0))),
        ],
    );
}
