//! The wrappers of the two finders: every answer and refusal comes through, each value in its place, and the slices are left as the call says.

use kelonbaro::{
    interval_finder, minimizer_finder, Candidates, FinderAnswer, IntervalFinder, MinimizerFinder,
    Refusal,
};

/// Example H of the papers, its hits out of order, and two hits of another contig.
const H: MinimizerFinder = MinimizerFinder {
    groups: &[3, 0, 2],
    contigs: &[0, 0, 0, 9, 9],
    positions: &[15, 5, 8, 30, 31],
    minimum: 2,
    length: 10,
    threshold: u64::MAX,
};

/// Example K.
const K: IntervalFinder = IntervalFinder {
    groups: &[1, 2],
    contigs: &[6, 6, 6],
    starts: &[6, 2, 4],
    ends: &[9, 6, 8],
    minimum: 2,
    threshold: u64::MAX,
};

/// Poisoned slices of exactly the needed lengths and one more entry each.
struct Poisoned {
    keys: [Vec<u64>; 2],
    out: [Vec<u32>; 3],
}

impl Poisoned {
    fn new(hits: usize) -> Self {
        Poisoned {
            keys: [vec![7; hits + 1], vec![7; hits + 1]],
            out: [vec![7; hits + 1], vec![7; hits + 1], vec![7; hits + 1]],
        }
    }

    fn lend(&mut self) -> (&mut [u64], &mut [u64], Candidates<'_>) {
        let [keys, end_keys] = &mut self.keys;
        let [contigs, starts, ends] = &mut self.out;
        let out = Candidates {
            contigs,
            starts,
            ends,
        };
        (keys, end_keys, out)
    }

    fn minimizer(&mut self, call: MinimizerFinder<'_>) -> Result<FinderAnswer, Refusal> {
        let (keys, _, mut out) = self.lend();
        minimizer_finder(call, keys, &mut out)
    }

    fn interval(&mut self, call: IntervalFinder<'_>) -> Result<FinderAnswer, Refusal> {
        let (keys, end_keys, mut out) = self.lend();
        interval_finder(call, keys, end_keys, &mut out)
    }

    fn untouched(&self) -> bool {
        let keys = self.keys.iter().flatten().all(|&x| x == 7);
        keys && self.out.iter().flatten().all(|&x| x == 7)
    }
}

fn refused(number: u8) -> Result<FinderAnswer, Refusal> {
    Err(Refusal { number, place: 0 })
}

#[test]
fn minimizer_candidates() {
    let mut lent = Poisoned::new(5);
    let answer = lent.minimizer(H);
    let (count, seed_hits) = (3, 5);
    assert_eq!(answer, Ok(FinderAnswer { count, seed_hits }));
    assert_eq!(lent.keys[0], [0, 0, 0, 0, 0, 7]);
    let expected = [[0, 0, 9, 7, 7, 7], [0, 6, 22, 7, 7, 7], [5, 8, 30, 7, 7, 7]];
    assert_eq!(lent.out, expected);
}

#[test]
fn interval_candidates() {
    let mut lent = Poisoned::new(3);
    let answer = lent.interval(K);
    let (count, seed_hits) = (1, 3);
    assert_eq!(answer, Ok(FinderAnswer { count, seed_hits }));
    assert_eq!(lent.keys, [[0, 0, 0, 7], [0, 0, 0, 7]]);
    assert_eq!(lent.out, [[6, 7, 7, 7], [4, 7, 7, 7], [7, 7, 7, 7]]);
}

/// A group as long as the threshold is dropped; no group is left to list anything.
#[test]
fn frequent_groups_are_dropped() {
    let threshold = 3;
    let mut lent = Poisoned::new(5);
    let answer = lent.minimizer(MinimizerFinder { threshold, ..H });
    let (count, seed_hits) = (1, 2);
    assert_eq!(answer, Ok(FinderAnswer { count, seed_hits }));
    let threshold = 1;
    let mut lent = Poisoned::new(3);
    let answer = lent.interval(IntervalFinder { threshold, ..K });
    let (count, seed_hits) = (0, 0);
    assert_eq!(answer, Ok(FinderAnswer { count, seed_hits }));
    assert!(lent.out.iter().flatten().all(|&x| x == 7));
}

#[test]
fn refusals_leave_all_as_it_was() {
    let long = vec![0; 4_097];
    #[rustfmt::skip]
    let minimizer = [
        (MinimizerFinder { groups: &long, ..H }, 1),
        (MinimizerFinder { minimum: 0, ..H }, 2),
        (MinimizerFinder { minimum: 1 << 31, ..H }, 2),
        (MinimizerFinder { positions: &[15, 5, 8, 30], ..H }, 3),
        (MinimizerFinder { groups: &[3, 3], ..H }, 3),
    ];
    for (call, number) in minimizer {
        let mut lent = Poisoned::new(5);
        assert_eq!(lent.minimizer(call), refused(number));
        assert!(lent.untouched());
    }
    #[rustfmt::skip]
    let interval = [
        (IntervalFinder { groups: &long, ..K }, 1),
        (IntervalFinder { minimum: 0, ..K }, 2),
        (IntervalFinder { minimum: u32::MAX, ..K }, 2),
        (IntervalFinder { starts: &[6, 2], ..K }, 3),
        (IntervalFinder { ends: &[9, 6], ..K }, 3),
        (IntervalFinder { groups: &[u32::MAX, 4], ..K }, 3),
    ];
    for (call, number) in interval {
        let mut lent = Poisoned::new(3);
        assert_eq!(lent.interval(call), refused(number));
        assert!(lent.untouched());
    }
}

/// Each slice in turn is short by one entry.
#[test]
fn short_slices_are_refused() {
    let shorten = |lent: &mut Poisoned, hits: usize, which: usize| match which {
        0 | 1 => lent.keys[which].truncate(hits - 1),
        _ => lent.out[which - 2].truncate(hits - 1),
    };
    for which in [0, 2, 3, 4] {
        let mut lent = Poisoned::new(5);
        shorten(&mut lent, 5, which);
        assert_eq!(lent.minimizer(H), refused(8));
        assert!(lent.untouched());
    }
    for which in 0..5 {
        let mut lent = Poisoned::new(3);
        shorten(&mut lent, 3, which);
        assert_eq!(lent.interval(K), refused(8));
        assert!(lent.untouched());
    }
}
