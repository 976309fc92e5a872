//! The wrappers of the two sweeps: every answer and refusal comes through, each value in its place, and the slices are left as the call says.

use kelonbaro::{
    interval_sweep, minimizer_sweep, Estimate, IntervalSweep, MinimizerSweep, Place, Range,
    Refusal, Settings, Stats, SweepAnswer, SweepNeeds, SweepWork,
};

type Answer = Result<SweepAnswer, Refusal>;

/// Identities and upper bounds differ, so that one in the place of the other is seen.
const IDENTITIES: [f64; 3] = [1.0, 50.0, 100.0];
const UPPERS: [f64; 3] = [2.0, 55.0, 105.0];

/// Example B2 of the papers.
const B2: MinimizerSweep = MinimizerSweep {
    settings: Settings {
        kmer: 3,
        length: 10,
    },
    window: 2,
    range: Range { start: 0, end: 11 },
    query: &[20, 40],
    hashes: &[20, 30, 40, 20, 50],
    positions: &[0, 4, 8, 12, 20],
    identities: &IDENTITIES,
    uppers: &UPPERS,
    minimum: 0.0,
};

/// Example D.
const D: IntervalSweep = IntervalSweep {
    settings: Settings {
        kmer: 3,
        length: 10,
    },
    range: Range { start: 1, end: 9 },
    query: &[20, 40],
    hashes: &[20, 30, 40],
    starts: &[0, 2, 4],
    ends: &[6, 9, 8],
    identities: &IDENTITIES,
    uppers: &UPPERS,
    minimum: 0.0,
};

/// Poisoned slices of exactly the needed lengths and one more entry each: hashes, words, summary and events; counts and coords.
struct Poisoned {
    wide: [Vec<u64>; 4],
    narrow: [Vec<u32>; 2],
}

impl Poisoned {
    fn new(query: usize, items: usize) -> Self {
        let needs = SweepNeeds::of(query, items);
        let wide = [needs.hashes, needs.words, needs.summary, needs.events];
        let narrow = [needs.counts, needs.coords];
        Poisoned {
            wide: wide.map(|need| vec![7; need + 1]),
            narrow: narrow.map(|need| vec![7; need + 1]),
        }
    }

    fn lend(&mut self) -> (SweepWork<'_>, &mut [u64]) {
        let [hashes, words, summary, events] = &mut self.wide;
        let [counts, coords] = &mut self.narrow;
        let work = SweepWork {
            hashes,
            counts,
            coords,
            words,
            summary,
        };
        (work, events)
    }

    fn untouched(&self) -> bool {
        let wide = self.wide.iter().flatten().all(|&x| x == 7);
        wide && self.narrow.iter().flatten().all(|&x| x == 7)
    }

    /// Whether all is zero but the entry past the need of each list; the events are looked at only where they were lent.
    fn zeroed(&self, events: bool) -> bool {
        fn front<T: Copy + From<u8> + PartialEq>(list: &[T]) -> bool {
            let (last, needed) = list.split_last().expect("one entry past the need");
            *last == 7.into() && needed.iter().all(|&x| x == 0.into())
        }
        let lent = if events { 4 } else { 3 };
        self.wide[..lent].iter().all(|list| front(list))
            && self.narrow.iter().all(|list| front(list))
    }
}

fn minimizer(call: MinimizerSweep<'_>) -> (Answer, Poisoned) {
    let mut lent = Poisoned::new(call.query.len(), call.hashes.len());
    let answer = minimizer_sweep(call, &mut lent.lend().0);
    (answer, lent)
}

fn interval(call: IntervalSweep<'_>) -> (Answer, Poisoned) {
    let mut lent = Poisoned::new(call.query.len(), call.hashes.len());
    let (mut work, events) = lent.lend();
    let answer = interval_sweep(call, &mut work, events);
    (answer, lent)
}

fn placed(start: u64, end: u64, shared: u32, windows: u64, coords: u32, items: u32) -> Answer {
    let entry = shared as usize;
    let place = Place {
        start,
        end,
        shared,
        size: 2,
        estimate: Estimate {
            identity: IDENTITIES[entry],
            upper: UPPERS[entry],
        },
    };
    Ok(SweepAnswer {
        place: Some(place),
        stats: Stats {
            windows,
            coords,
            items,
        },
    })
}

fn none(windows: u64, coords: u32, items: u32) -> Answer {
    Ok(SweepAnswer {
        place: None,
        stats: Stats {
            windows,
            coords,
            items,
        },
    })
}

fn refused(number: u8, place: u32) -> Answer {
    Err(Refusal { number, place })
}

#[test]
fn minimizer_answers() {
    let b1 = MinimizerSweep {
        range: Range { start: 0, end: 10 },
        ..B2
    };
    let c = MinimizerSweep {
        positions: &[0, 0, 8, 12, 20],
        ..B2
    };
    let dear = MinimizerSweep {
        minimum: 105.5,
        ..B2
    };
    let nan = MinimizerSweep {
        minimum: f64::NAN,
        ..B2
    };
    let short = MinimizerSweep { window: 9, ..B2 };
    let answers = [
        (B2, placed(8, 17, 2, 5, 4, 5)),
        (b1, placed(0, 9, 1, 3, 3, 4)),
        (c, placed(0, 9, 1, 1, 4, 5)),
        (dear, none(5, 4, 5)),
        (nan, placed(8, 17, 2, 5, 4, 5)),
        (short, none(0, 0, 0)),
    ];
    for (call, expected) in answers {
        let (answer, lent) = minimizer(call);
        assert_eq!(answer, expected);
        assert!(lent.zeroed(false));
    }
}

#[test]
fn interval_answers() {
    let e = IntervalSweep {
        range: Range { start: 3, end: 5 },
        hashes: &[30],
        starts: &[2],
        ends: &[9],
        ..D
    };
    let f = IntervalSweep {
        range: Range { start: 50, end: 52 },
        hashes: &[20],
        starts: &[0],
        ends: &[100],
        ..D
    };
    let g = IntervalSweep {
        range: Range { start: 3, end: 9 },
        hashes: &[20],
        starts: &[5],
        ends: &[5],
        ..D
    };
    let full = IntervalSweep {
        range: Range {
            start: 0,
            end: u32::MAX,
        },
        ..D
    };
    let answers = [
        (D, placed(3, 12, 1, 9, 3, 3)),
        (e, placed(4, 13, 0, 3, 3, 1)),
        (f, none(0, 0, 0)),
        (g, placed(7, 16, 1, 7, 2, 1)),
        (full, placed(2, 11, 1, 1 << 32, 3, 3)),
    ];
    for (call, expected) in answers {
        let (answer, lent) = interval(call);
        assert_eq!(answer, expected);
        assert!(lent.zeroed(true));
    }
}

#[test]
fn minimizer_refusals_leave_all_as_it_was() {
    let no_kmer = Settings {
        kmer: 0,
        ..B2.settings
    };
    let long: Vec<u64> = (0..4_097).collect();
    #[rustfmt::skip]
    let calls = [
        (MinimizerSweep { query: &long, ..B2 }, 1, 0),
        (MinimizerSweep { settings: no_kmer, ..B2 }, 2, 0),
        (MinimizerSweep { window: 0, ..B2 }, 2, 0),
        (MinimizerSweep { positions: &[0, 4, 8, 12], ..B2 }, 3, 0),
        (MinimizerSweep { uppers: &UPPERS[1..], ..B2 }, 3, 0),
        (MinimizerSweep { query: &[40, 40], ..B2 }, 4, 1),
        (MinimizerSweep { positions: &[0, 4, 8, 7, 20], ..B2 }, 5, 3),
        (MinimizerSweep { identities: &[0.0; 2], uppers: &[0.0; 2], ..B2 }, 7, 0),
    ];
    for (call, number, place) in calls {
        let (answer, lent) = minimizer(call);
        assert_eq!(answer, refused(number, place));
        assert!(lent.untouched());
    }
}

#[test]
fn interval_refusals_leave_all_as_it_was() {
    let no_kmer = Settings {
        kmer: 0,
        ..D.settings
    };
    let long: Vec<u64> = (0..4_097).collect();
    #[rustfmt::skip]
    let calls = [
        (IntervalSweep { query: &long, ..D }, 1, 0),
        (IntervalSweep { settings: no_kmer, ..D }, 2, 0),
        (IntervalSweep { starts: &[0, 2], ..D }, 3, 0),
        (IntervalSweep { ends: &[6, 9], ..D }, 3, 0),
        (IntervalSweep { uppers: &UPPERS[1..], ..D }, 3, 0),
        (IntervalSweep { query: &[40, 20], ..D }, 4, 1),
        (IntervalSweep { starts: &[0, 5, 4], ..D }, 5, 2),
        (IntervalSweep { identities: &[0.0; 2], uppers: &[0.0; 2], ..D }, 7, 0),
    ];
    for (call, number, place) in calls {
        let (answer, lent) = interval(call);
        assert_eq!(answer, refused(number, place));
        assert!(lent.untouched());
    }
}

/// Each slice in turn is short by one entry.
#[test]
fn short_slices_are_refused() {
    let shorten = |lent: &mut Poisoned, which: usize| match which {
        0..=3 => lent.wide[which].truncate(lent.wide[which].len() - 2),
        _ => lent.narrow[which - 4].truncate(lent.narrow[which - 4].len() - 2),
    };
    for which in [0, 1, 2, 4, 5] {
        let mut lent = Poisoned::new(B2.query.len(), B2.hashes.len());
        shorten(&mut lent, which);
        assert_eq!(minimizer_sweep(B2, &mut lent.lend().0), refused(8, 0));
        assert!(lent.untouched());
    }
    for which in 0..6 {
        let mut lent = Poisoned::new(D.query.len(), D.hashes.len());
        shorten(&mut lent, which);
        let (mut work, events) = lent.lend();
        assert_eq!(interval_sweep(D, &mut work, events), refused(8, 0));
        assert!(lent.untouched());
    }
}
