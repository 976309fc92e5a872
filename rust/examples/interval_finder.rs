//! Example K of the papers: the positions that at least two of three intervals cover.

use kelonbaro::{interval_finder, Candidates, IntervalFinder, Refusal};

fn main() -> Result<(), Refusal> {
    let call = IntervalFinder {
        groups: &[3],
        contigs: &[0, 0, 0],
        starts: &[2, 4, 6],
        ends: &[6, 8, 9],
        minimum: 2,
        threshold: u64::MAX,
    };
    let mut out = Candidates {
        contigs: &mut [0; 3],
        starts: &mut [0; 3],
        ends: &mut [0; 3],
    };
    let answer = interval_finder(call, &mut [0; 3], &mut [0; 3], &mut out)?;
    println!("{} seed hits:", answer.seed_hits);
    for found in out.first(answer.count) {
        println!("  contig {}: {}..{}", found.contig, found.start, found.end);
    }
    Ok(())
}
