//! One sweep on the proved library, the original and the model, with every byte of the lent slices looked at.

use kelonbaro::{IntervalSweep, MinimizerSweep, Range, Refusal, Settings, SweepWork};
use oracle::call::{Mode, Place, Stats, SweepAnswer, SweepCall};
use oracle::case::{refused, same_sweep};
use oracle::model::{self, needs, refusals};
use oracle::original;
use oracle::random::Random;

use crate::judged::{first_wrong, two_answers, Judged};
use crate::lent::Lent;

pub type Answer = Result<kelonbaro::SweepAnswer, Refusal>;

/// The call that is judged: one of the two below, or a wrong one that the tests put in its place. A minimizer sweep is lent no event keys.
pub type Call = fn(&SweepCall, &mut SweepWork<'_>, &mut [u64]) -> Answer;

pub fn minimizer(call: &SweepCall, work: &mut SweepWork<'_>, _: &mut [u64]) -> Answer {
    let given = MinimizerSweep {
        settings: settings(call),
        window: call.window,
        range: range(call),
        query: &call.query,
        hashes: &call.hashes,
        positions: &call.starts,
        identities: &call.identities,
        uppers: &call.uppers,
        minimum: call.minimum,
    };
    kelonbaro::minimizer_sweep(given, work)
}

pub fn interval(call: &SweepCall, work: &mut SweepWork<'_>, events: &mut [u64]) -> Answer {
    let given = IntervalSweep {
        settings: settings(call),
        range: range(call),
        query: &call.query,
        hashes: &call.hashes,
        starts: &call.starts,
        ends: &call.ends,
        identities: &call.identities,
        uppers: &call.uppers,
        minimum: call.minimum,
    };
    kelonbaro::interval_sweep(given, work, events)
}

fn settings(call: &SweepCall) -> Settings {
    Settings {
        kmer: call.kmer,
        length: call.length,
    }
}

fn range(call: &SweepCall) -> Range {
    Range {
        start: call.range_start,
        end: call.range_end,
    }
}

/// The proved answer in the oracle's words.
pub fn told(answer: &Answer) -> SweepAnswer {
    let answer = match answer {
        Ok(answer) => answer,
        Err(refusal) => {
            return SweepAnswer::Refused(oracle::call::Refusal {
                number: refusal.number,
                place: refusal.place,
            })
        }
    };
    let stats = Stats {
        windows: answer.stats.windows,
        coords: answer.stats.coords,
        items: answer.stats.items,
    };
    match answer.place {
        None => SweepAnswer::Nothing(stats),
        Some(place) => SweepAnswer::Placed(
            Place {
                start: place.start,
                end: place.end,
                shared: place.shared,
                size: place.size,
                identity: place.estimate.identity,
                upper: place.estimate.upper,
            },
            stats,
        ),
    }
}

/// The model scores afresh at each stop; past this many items × (items + query hashes) only the original is asked.
const PATIENCE: usize = 1 << 22;

pub struct Slices {
    hashes: Lent<u64>,
    counts: Lent<u32>,
    coords: Lent<u32>,
    words: Lent<u64>,
    summary: Lent<u64>,
    events: Lent<u64>,
}

impl Slices {
    pub fn poisoned(call: &SweepCall) -> Self {
        let mut random = Random::new(call.hashes.len() as u64 ^ 0x5eed);
        Slices {
            hashes: Lent::new(call.room.hashes, &mut random, |x| x),
            counts: Lent::new(call.room.counts, &mut random, |x| x as u32),
            coords: Lent::new(call.room.items, &mut random, |x| x as u32),
            words: Lent::new(call.room.words, &mut random, |x| x),
            summary: Lent::new(call.room.summary, &mut random, |x| x),
            events: Lent::new(call.room.events, &mut random, |x| x),
        }
    }

    pub fn run(&mut self, proved: Call, call: &SweepCall) -> Answer {
        let mut work = SweepWork {
            hashes: self.hashes.slice(),
            counts: self.counts.slice(),
            coords: self.coords.slice(),
            words: self.words.slice(),
            summary: self.summary.slice(),
        };
        proved(call, &mut work, self.events.slice())
    }

    /// The first slice that is not zero in its first `m` entries, or however many it needs of them, and else as it was.
    fn misfilled(&self, need: &oracle::call::SweepRoom) -> Option<&'static str> {
        first_wrong(&[
            ("hashes", self.hashes.holds(&vec![0; need.hashes])),
            ("counts", self.counts.holds(&vec![0; need.counts])),
            ("coords", self.coords.holds(&vec![0; need.items])),
            ("words", self.words.holds(&vec![0; need.words])),
            ("summary", self.summary.holds(&vec![0; need.summary])),
            ("events", self.events.holds(&vec![0; need.events])),
        ])
    }
}

pub fn judge(proved: Call, call: &SweepCall) -> Judged {
    let mut slices = Slices::poisoned(call);
    let answer = told(&slices.run(proved, call));
    // The original has no refusals, so the model alone says which.
    let Err(refusal) = refusals::sweep(call) else {
        return judge_done(answer, &slices, call);
    };
    let nothing = needs::sweep(Mode::Minimizer, 0, 0);
    Judged {
        kind: refused(refusal.number),
        entries: 0,
        modelled: true,
        difference: differs(answer, SweepAnswer::Refused(refusal), &slices, &nothing),
    }
}

fn judge_done(answer: SweepAnswer, slices: &Slices, call: &SweepCall) -> Judged {
    let items = call.hashes.len();
    let modelled = items * (items + call.query.len()) <= PATIENCE;
    let need = needs::sweep(call.mode, call.query.len(), items);
    let (kind, difference) = match original::sweep(call) {
        Err(panic) => ("panic", Some(format!("the original: {panic}"))),
        Ok(original) if modelled && !same_sweep(&original, &model::sweep(call)) => {
            ("unclear", Some("the original and the model differ".into()))
        }
        Ok(original) => (kind(&original), differs(answer, original, slices, &need)),
    };
    Judged {
        kind,
        entries: items as u64,
        modelled,
        difference,
    }
}

fn differs(
    answer: SweepAnswer,
    expected: SweepAnswer,
    slices: &Slices,
    need: &oracle::call::SweepRoom,
) -> Option<String> {
    if !same_sweep(&answer, &expected) {
        return Some(two_answers(&answer, &expected));
    }
    let name = slices.misfilled(need)?;
    Some(format!("{answer:?}, and {name} is left otherwise"))
}

fn kind(answer: &SweepAnswer) -> &'static str {
    match answer {
        SweepAnswer::Refused(refusal) => refused(refusal.number),
        SweepAnswer::Nothing(stats) if stats.coords == 0 => "none before coordinates",
        SweepAnswer::Nothing(_) => "none",
        SweepAnswer::Placed(place, _) if place.upper.is_nan() => "placed, upper bound NaN",
        SweepAnswer::Placed(place, _) if place.shared == 0 => "placed, shared 0",
        SweepAnswer::Placed(..) => "placed",
    }
}
