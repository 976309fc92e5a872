//! Candidate finding: runs of hits, and covered positions.

use crate::call::{Candidate, FinderAnswer, FinderCall, Mode};

#[derive(Clone, Copy, Debug, PartialEq, Eq, PartialOrd, Ord)]
struct Hit {
    contig: u32,
    start: u32,
    /// Of no use in the minimizer finder, where it is 0.
    end: u32,
}

pub fn answer(call: &FinderCall) -> FinderAnswer {
    let mut hits = kept(call);
    let seed_hits = hits.len() as u32;
    hits.sort();
    let ranges = match call.mode {
        Mode::Minimizer => runs(call, &hits),
        Mode::Interval => covered(call, &hits),
    };
    FinderAnswer::Listed { ranges, seed_hits }
}

/// The hits of every group that is shorter than the threshold.
fn kept(call: &FinderCall) -> Vec<Hit> {
    let mut kept = Vec::new();
    let mut from = 0;
    for &length in &call.groups {
        let to = from + length as usize;
        if u64::from(length) < call.threshold {
            kept.extend((from..to).map(|i| hit(call, i)));
        }
        from = to;
    }
    kept
}

fn hit(call: &FinderCall, i: usize) -> Hit {
    Hit {
        contig: call.contigs[i],
        start: call.starts[i],
        end: match call.mode {
            Mode::Minimizer => 0,
            Mode::Interval => call.ends[i],
        },
    }
}

/// Each run of minimum-hits neighbours in one contig with last − first < length: max(0, last − length + 1) to first.
fn runs(call: &FinderCall, hits: &[Hit]) -> Vec<Candidate> {
    let mut ranges: Vec<Candidate> = Vec::new();
    for run in hits.windows(call.minimum as usize) {
        let (first, last) = (run[0], run[run.len() - 1]);
        if first.contig == last.contig && last.start - first.start < call.length {
            let range = Candidate {
                contig: first.contig,
                start: (i64::from(last.start) - i64::from(call.length) + 1).max(0) as u32,
                end: first.start,
            };
            append(&mut ranges, range, 0);
        }
    }
    ranges
}

/// Joins the previous range of that contig if previous end + gap ≥ its start, else stands for itself.
fn append(ranges: &mut Vec<Candidate>, range: Candidate, gap: u64) {
    match ranges.last_mut() {
        Some(last)
            if last.contig == range.contig
                && u64::from(last.end) + gap >= u64::from(range.start) =>
        {
            last.end = last.end.max(range.end);
        }
        _ => ranges.push(range),
    }
}

/// Positions that at least the minimum of intervals cover; an interval with start ≥ end is passed over. Coverage changes
/// only where an interval starts or ends; touching ranges join (gap 1).
fn covered(call: &FinderCall, hits: &[Hit]) -> Vec<Candidate> {
    let mut ranges = Vec::new();
    for contig_hits in hits.chunk_by(|a, b| a.contig == b.contig) {
        let proper: Vec<Hit> = contig_hits
            .iter()
            .copied()
            .filter(|h| h.start < h.end)
            .collect();
        let starts = ascending(proper.iter().map(|h| h.start));
        let ends = ascending(proper.iter().map(|h| h.end));
        let bounds = ascending(starts.iter().chain(&ends).copied());
        for span in bounds.windows(2) {
            let covering = through(&starts, span[0]) - through(&ends, span[0]);
            if span[0] < span[1] && covering >= call.minimum as usize {
                let range = Candidate {
                    contig: contig_hits[0].contig,
                    start: span[0],
                    end: span[1] - 1,
                };
                append(&mut ranges, range, 1);
            }
        }
    }
    ranges
}

fn ascending(numbers: impl Iterator<Item = u32>) -> Vec<u32> {
    let mut numbers: Vec<u32> = numbers.collect();
    numbers.sort();
    numbers
}

/// How many of ascending numbers are at or below `at`.
fn through(numbers: &[u32], at: u32) -> usize {
    numbers.partition_point(|&n| n <= at)
}

/// The interval finder's ranges by asking every position of every contig, for positions up to `most`: the paper's
/// sentence as it stands.
pub fn covered_by_positions(call: &FinderCall, most: u32) -> Vec<Candidate> {
    let hits = kept(call);
    let contigs = {
        let mut contigs = ascending(hits.iter().map(|h| h.contig));
        contigs.dedup();
        contigs
    };
    let mut ranges = Vec::new();
    for contig in contigs {
        for p in 0..=most {
            let covers = |h: &&Hit| h.contig == contig && h.start <= p && p < h.end;
            if hits.iter().filter(covers).count() >= call.minimum as usize {
                let range = Candidate {
                    contig,
                    start: p,
                    end: p,
                };
                append(&mut ranges, range, 1);
            }
        }
    }
    ranges
}
