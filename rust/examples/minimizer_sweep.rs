//! Examples B1 and B2 of the papers: one fragment, two ranges that differ by one base.

use kelonbaro::{minimizer_sweep, MinimizerSweep, Range, Refusal, Settings, SweepNeeds, SweepWork};

fn main() -> Result<(), Refusal> {
    let table = [0.0, 50.0, 100.0];
    let call = MinimizerSweep {
        settings: Settings {
            kmer: 3,
            length: 10,
        },
        window: 2,
        range: Range { start: 0, end: 10 },
        query: &[20, 40],
        hashes: &[20, 30, 40, 20, 50],
        positions: &[0, 4, 8, 12, 20],
        identities: &table,
        uppers: &table,
        minimum: 0.0,
    };
    let needs = SweepNeeds::of(call.query.len(), call.hashes.len());
    let mut work = SweepWork {
        hashes: &mut vec![0; needs.hashes],
        counts: &mut vec![0; needs.counts],
        coords: &mut vec![0; needs.coords],
        words: &mut vec![0; needs.words],
        summary: &mut vec![0; needs.summary],
    };
    for end in [10, 11] {
        let range = Range { start: 0, end };
        let answer = minimizer_sweep(MinimizerSweep { range, ..call }, &mut work)?;
        match answer.place {
            Some(place) => println!(
                "range 0..{end}: {} to {}, {} of {} shared, identity {}",
                place.start, place.end, place.shared, place.size, place.estimate.identity
            ),
            None => println!("range 0..{end}: none"),
        }
        println!("{:?}", answer.stats);
    }
    Ok(())
}
