//! Examples D and F of the papers: an interval sweep that places its fragment, and one that takes no interval.

use kelonbaro::{interval_sweep, IntervalSweep, Range, Refusal, Settings, SweepNeeds, SweepWork};

fn main() -> Result<(), Refusal> {
    let table = [0.0, 50.0, 100.0];
    let d = IntervalSweep {
        settings: Settings {
            kmer: 3,
            length: 10,
        },
        range: Range { start: 1, end: 9 },
        query: &[20, 40],
        hashes: &[20, 30, 40],
        starts: &[0, 2, 4],
        ends: &[6, 9, 8],
        identities: &table,
        uppers: &table,
        minimum: 0.0,
    };
    let f = IntervalSweep {
        range: Range { start: 50, end: 52 },
        hashes: &[20],
        starts: &[0],
        ends: &[100],
        ..d
    };
    let needs = SweepNeeds::of(d.query.len(), d.hashes.len());
    let mut work = SweepWork {
        hashes: &mut vec![0; needs.hashes],
        counts: &mut vec![0; needs.counts],
        coords: &mut vec![0; needs.coords],
        words: &mut vec![0; needs.words],
        summary: &mut vec![0; needs.summary],
    };
    let mut events = vec![0; needs.events];
    for call in [d, f] {
        let (start, end) = (call.range.start, call.range.end);
        let answer = interval_sweep(call, &mut work, &mut events)?;
        match answer.place {
            Some(place) => println!(
                "range {start}..{end}: {} to {}, {} of {} shared, identity {}",
                place.start, place.end, place.shared, place.size, place.estimate.identity
            ),
            None => println!("range {start}..{end}: none"),
        }
        println!("{:?}", answer.stats);
    }
    Ok(())
}
