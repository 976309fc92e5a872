//! Examples H, I and J of the papers: which hits of one contig, at least two within ten bases, make a candidate.

use kelonbaro::{minimizer_finder, Candidates, MinimizerFinder, Refusal};

fn main() -> Result<(), Refusal> {
    let cases: [&[u32]; 4] = [&[5, 8, 15], &[5, 8, 14], &[5, 14], &[5, 15]];
    for positions in cases {
        let hits = positions.len();
        let call = MinimizerFinder {
            groups: &[hits as u32],
            contigs: &vec![0; hits],
            positions,
            minimum: 2,
            length: 10,
            threshold: u64::MAX,
        };
        let mut out = Candidates {
            contigs: &mut vec![0; hits],
            starts: &mut vec![0; hits],
            ends: &mut vec![0; hits],
        };
        let answer = minimizer_finder(call, &mut vec![0; hits], &mut out)?;
        println!("hits {positions:?}, {} seed hits:", answer.seed_hits);
        for found in out.first(answer.count) {
            println!("  contig {}: {}..{}", found.contig, found.start, found.end);
        }
    }
    Ok(())
}
