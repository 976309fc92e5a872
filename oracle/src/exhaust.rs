//! `oracle exhaust`: all cases over tiny domains, one domain for each call.

use std::time::Instant;

use crate::call::{FinderCall, Kind, Mode, ScriptCall, SweepCall};
use crate::case::{Case, SMALL_PATIENCE};
use crate::diff::Tally;
use crate::model::needs;

/// Is handed one case after the other, as long as it answers true.
pub type Visit<'a> = &'a mut dyn FnMut(&Case) -> bool;

/// Stops at the first difference and answers whether there was none.
pub fn run() -> bool {
    for kind in Kind::ALL {
        let began = Instant::now();
        let mut tally = Tally::default();
        println!("{}", kind.name());
        let all_same = all(kind, &mut |case| tally.judge(case, SMALL_PATIENCE));
        tally.print(began.elapsed().as_secs_f64());
        if !all_same {
            return false;
        }
    }
    true
}

/// All cases of the domain of one call; answers whether every visit answered true.
pub fn all(kind: Kind, visit: Visit<'_>) -> bool {
    match kind {
        Kind::Script => scripts(visit),
        Kind::Sweep(Mode::Minimizer) => minimizer_sweeps(visit),
        Kind::Sweep(Mode::Interval) => interval_sweeps(visit),
        Kind::Finder(Mode::Minimizer) => minimizer_finders(visit),
        Kind::Finder(Mode::Interval) => interval_finders(visit),
    }
}

/// Every list of exactly `length` letters, one after the other, as long as `visit` answers true.
fn words<T: Copy>(letters: &[T], length: usize, visit: &mut dyn FnMut(&[T]) -> bool) -> bool {
    let mut word = Vec::with_capacity(length);
    extend(letters, length, &mut word, visit)
}

fn extend<T: Copy>(
    letters: &[T],
    length: usize,
    word: &mut Vec<T>,
    visit: &mut dyn FnMut(&[T]) -> bool,
) -> bool {
    if word.len() == length {
        return visit(word);
    }
    for &letter in letters {
        word.push(letter);
        let on = extend(letters, length, word, visit);
        word.pop();
        if !on {
            return false;
        }
    }
    true
}

/// All subsets of 1, 2, …, n, ascending.
fn subsets(n: u64) -> Vec<Vec<u64>> {
    let chosen = |bits: u64| (1..=n).filter(|i| bits >> (i - 1) & 1 == 1).collect();
    (0..1u64 << n).map(chosen).collect()
}

/// The product of two lists.
fn pairs<A: Copy, B: Copy>(left: &[A], right: &[B]) -> Vec<(A, B)> {
    let row = |&a: &A| right.iter().map(move |&b| (a, b));
    left.iter().flat_map(row).collect()
}

/// Coordinates 1 to 3 with scripts of up to 6 steps, 1 to 4 with up to 5; every query that is not empty.
fn scripts(visit: Visit<'_>) -> bool {
    [(3, 6), (4, 5)].iter().all(|&(coords, most)| {
        let queries = subsets(coords);
        let indexes: Vec<u32> = (0..coords as u32).collect();
        let steps = pairs(&indexes, &[0u8, 1]);
        queries[1..].iter().all(|query| {
            (0..=most).all(|length| {
                words(&steps, length, &mut |word| {
                    visit(&script(query, coords, word))
                })
            })
        })
    })
}

fn script(query: &[u64], coords: u64, steps: &[(u32, u8)]) -> Case {
    let (indexes, kinds) = steps.iter().copied().unzip();
    Case::Script(ScriptCall {
        query: query.to_vec(),
        coords: (1..=coords).collect(),
        indexes,
        kinds,
        room: needs::script(coords as usize, steps.len()),
    })
}

/// K-mer size, window size, length.
type Settings = (u32, u32, u32);

/// An item's hash, start and end; the minimizer sweep has no end.
type Item = (u64, u32, u32);

/// Up to 3 items at 0 to 4 with hashes 1 to 3 and all settings; 4 items with W = 1, 2 and 3.
fn minimizer_sweeps(visit: Visit<'_>) -> bool {
    let settings: [Settings; 8] = [
        (1, 1, 0),
        (1, 1, 1),
        (1, 1, 2),
        (1, 1, 3),
        (1, 1, 4),
        (2, 1, 3),
        (1, 2, 3),
        (2, 2, 2),
    ];
    let items: Vec<Item> = pairs(&[1, 2, 3], &[0, 1, 2, 3, 4])
        .iter()
        .map(|&(hash, position)| (hash, position, 0))
        .collect();
    let all = Domain::new(Mode::Minimizer, subsets(3), ranges(5));
    let few = Domain::new(Mode::Minimizer, subsets(3)[1..].to_vec(), ranges(4));
    (0..=3).all(|length| all.visit(visit, &settings, &items, length))
        && few.visit(visit, &settings[1..4], &items, 4)
}

/// Up to 2 intervals with hashes 1 to 3 and 3 with hashes 1 and 2, starts 0 to 3, ends 0 to 4.
fn interval_sweeps(visit: Visit<'_>) -> bool {
    let settings: [Settings; 4] = [(2, 0, 1), (1, 0, 1), (2, 0, 3), (1, 0, 4)];
    let bounds = pairs(&[0, 1, 2, 3], &[0, 1, 2, 3, 4]);
    let items = |hashes: &[u64]| -> Vec<Item> {
        pairs(hashes, &bounds)
            .iter()
            .map(|&(hash, (start, end))| (hash, start, end))
            .collect()
    };
    let all = Domain::new(Mode::Interval, subsets(3), ranges(4));
    let few = Domain::new(Mode::Interval, subsets(2)[1..].to_vec(), ranges(4));
    (0..=2).all(|length| all.visit(visit, &settings, &items(&[1, 2, 3]), length))
        && few.visit(visit, &settings[1..3], &items(&[1, 2]), 3)
}

/// All ranges, reversed ones too, with bounds up to `most`.
fn ranges(most: u32) -> Vec<(u32, u32)> {
    let bounds: Vec<u32> = (0..=most).collect();
    pairs(&bounds, &bounds)
}

struct Domain {
    mode: Mode,
    queries: Vec<Vec<u64>>,
    ranges: Vec<(u32, u32)>,
}

impl Domain {
    fn new(mode: Mode, queries: Vec<Vec<u64>>, ranges: Vec<(u32, u32)>) -> Self {
        Domain {
            mode,
            queries,
            ranges,
        }
    }

    /// Every list of `length` items whose starts do not descend, with every query, range and setting.
    fn visit(
        &self,
        visit: Visit<'_>,
        settings: &[Settings],
        items: &[Item],
        length: usize,
    ) -> bool {
        words(items, length, &mut |word| {
            if !word.windows(2).all(|two| two[0].1 <= two[1].1) {
                return true;
            }
            self.queries.iter().all(|query| {
                settings
                    .iter()
                    .all(|&settings| self.visit_ranges(visit, settings, query, word))
            })
        })
    }

    fn visit_ranges(
        &self,
        visit: Visit<'_>,
        settings: Settings,
        query: &[u64],
        items: &[Item],
    ) -> bool {
        let mut case = self.case(settings, query, items);
        self.ranges.iter().all(|&(start, end)| {
            if let Case::Sweep(call) = &mut case {
                (call.range_start, call.range_end) = (start, end);
            }
            visit(&case)
        })
    }

    fn case(&self, settings: Settings, query: &[u64], items: &[Item]) -> Case {
        let (kmer, window, length) = settings;
        let table: Vec<f64> = (0..=query.len()).map(|shared| shared as f64).collect();
        Case::Sweep(SweepCall {
            mode: self.mode,
            kmer,
            window,
            length,
            range_start: 0,
            range_end: 0,
            query: query.to_vec(),
            hashes: items.iter().map(|i| i.0).collect(),
            starts: items.iter().map(|i| i.1).collect(),
            ends: match self.mode {
                Mode::Minimizer => Vec::new(),
                Mode::Interval => items.iter().map(|i| i.2).collect(),
            },
            identities: table.clone(),
            uppers: table,
            minimum: 0.0,
            room: needs::sweep(self.mode, query.len(), items.len()),
        })
    }
}

/// A hit's contig, start and end.
type Hit = (u32, u32, u32);

/// Up to 4 hits at 0 to 4 of contigs 0 and 1, lengths 0 to 4.
fn minimizer_finders(visit: Visit<'_>) -> bool {
    let hits: Vec<Hit> = pairs(&[0, 1], &[0, 1, 2, 3, 4])
        .iter()
        .map(|&(contig, position)| (contig, position, 0))
        .collect();
    let settings = pairs(&[1, 2, 3], &[0, 1, 2, 3, 4]);
    (0..=4).all(|length| visit_finders(visit, Mode::Minimizer, &hits, length, &settings))
}

/// Up to 3 intervals with starts 0 to 3 and ends 0 to 4 of contigs 0 and 1, 4 of one contig.
fn interval_finders(visit: Visit<'_>) -> bool {
    let bounds = pairs(&[0, 1, 2, 3], &[0, 1, 2, 3, 4]);
    let hits = |contigs: &[u32]| -> Vec<Hit> {
        pairs(contigs, &bounds)
            .iter()
            .map(|&(contig, (start, end))| (contig, start, end))
            .collect()
    };
    let settings = pairs(&[1, 2, 3], &[0]);
    (0..=3).all(|length| visit_finders(visit, Mode::Interval, &hits(&[0, 1]), length, &settings))
        && visit_finders(visit, Mode::Interval, &hits(&[0]), 4, &settings[1..2])
}

/// Every list of hits, in one group, and cut into two with a threshold that drops the longer one.
fn visit_finders(
    visit: Visit<'_>,
    mode: Mode,
    hits: &[Hit],
    length: usize,
    settings: &[(u32, u32)],
) -> bool {
    let short = length as u32 / 3;
    let groups = [vec![length as u32], vec![short, length as u32 - short]];
    words(hits, length, &mut |word| {
        settings.iter().all(|&settings| {
            let thresholds = [u64::MAX, length as u64 / 2 + 1];
            groups
                .iter()
                .zip(thresholds)
                .all(|(groups, threshold)| visit(&finder(mode, word, settings, groups, threshold)))
        })
    })
}

fn finder(mode: Mode, hits: &[Hit], settings: (u32, u32), groups: &[u32], threshold: u64) -> Case {
    Case::Finder(FinderCall {
        mode,
        groups: groups.to_vec(),
        contigs: hits.iter().map(|h| h.0).collect(),
        starts: hits.iter().map(|h| h.1).collect(),
        ends: match mode {
            Mode::Minimizer => Vec::new(),
            Mode::Interval => hits.iter().map(|h| h.2).collect(),
        },
        minimum: settings.0,
        length: settings.1,
        threshold,
        room: needs::finder(mode, hits.len()),
    })
}
