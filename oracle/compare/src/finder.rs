//! One finder on the proved library, the original and the model, with every byte of the lent slices looked at.

use kelonbaro::{Candidates, IntervalFinder, MinimizerFinder, Refusal};
use oracle::call::{Candidate, FinderAnswer, FinderCall, FinderRoom, Mode};
use oracle::case::refused;
use oracle::model::{self, needs, refusals};
use oracle::original;
use oracle::random::Random;

use crate::judged::{first_wrong, two_answers, Judged};
use crate::lent::Lent;

pub type Answer = Result<kelonbaro::FinderAnswer, Refusal>;

/// The call that is judged: one of the two below, or a wrong one that the tests put in its place. Lent are keys of hits or starts, and keys of
/// ends, which a minimizer finder is not handed.
pub type Call = fn(&FinderCall, &mut [u64], &mut [u64], &mut Candidates<'_>) -> Answer;

pub fn minimizer(
    call: &FinderCall,
    keys: &mut [u64],
    _: &mut [u64],
    out: &mut Candidates<'_>,
) -> Answer {
    let given = MinimizerFinder {
        groups: &call.groups,
        contigs: &call.contigs,
        positions: &call.starts,
        minimum: call.minimum,
        length: call.length,
        threshold: call.threshold,
    };
    kelonbaro::minimizer_finder(given, keys, out)
}

pub fn interval(
    call: &FinderCall,
    keys: &mut [u64],
    end_keys: &mut [u64],
    out: &mut Candidates<'_>,
) -> Answer {
    let given = IntervalFinder {
        groups: &call.groups,
        contigs: &call.contigs,
        starts: &call.starts,
        ends: &call.ends,
        minimum: call.minimum,
        threshold: call.threshold,
    };
    kelonbaro::interval_finder(given, keys, end_keys, out)
}

/// The model sorts and looks as often as there are hits; past this many only the original is asked.
const PATIENCE: usize = 1 << 12;

struct Slices {
    keys: Lent<u64>,
    end_keys: Lent<u64>,
    contigs: Lent<u32>,
    starts: Lent<u32>,
    ends: Lent<u32>,
}

impl Slices {
    fn poisoned(call: &FinderCall) -> Self {
        let mut random = Random::new(call.contigs.len() as u64 ^ 0x5eed);
        Slices {
            keys: Lent::new(call.room.keys, &mut random, |x| x),
            end_keys: Lent::new(call.room.end_keys, &mut random, |x| x),
            contigs: Lent::new(call.room.contigs, &mut random, |x| x as u32),
            starts: Lent::new(call.room.starts, &mut random, |x| x as u32),
            ends: Lent::new(call.room.ends, &mut random, |x| x as u32),
        }
    }

    fn run(&mut self, proved: Call, call: &FinderCall) -> Answer {
        let mut out = Candidates {
            contigs: self.contigs.slice(),
            starts: self.starts.slice(),
            ends: self.ends.slice(),
        };
        let (keys, end_keys) = (self.keys.slice(), self.end_keys.slice());
        proved(call, keys, end_keys, &mut out)
    }

    /// The first slice that does not hold zeros as far as it is needed, or the ranges, and else what it held before.
    fn misfilled(&self, need: &FinderRoom, ranges: &[Candidate]) -> Option<&'static str> {
        let all = |of: fn(&Candidate) -> u32| ranges.iter().map(of).collect::<Vec<u32>>();
        first_wrong(&[
            ("keys", self.keys.holds(&vec![0; need.keys])),
            ("end_keys", self.end_keys.holds(&vec![0; need.end_keys])),
            ("contigs", self.contigs.holds(&all(|range| range.contig))),
            ("starts", self.starts.holds(&all(|range| range.start))),
            ("ends", self.ends.holds(&all(|range| range.end))),
        ])
    }
}

pub fn judge(proved: Call, call: &FinderCall) -> Judged {
    let mut slices = Slices::poisoned(call);
    let answer = slices.run(proved, call);
    // The original has no refusals, so the model alone says which.
    let Err(refusal) = refusals::finder(call) else {
        return judge_done(answer, &slices, call);
    };
    let expected = Err(Refusal {
        number: refusal.number,
        place: refusal.place,
    });
    let nothing = needs::finder(Mode::Minimizer, 0);
    Judged {
        kind: refused(refusal.number),
        entries: 0,
        modelled: true,
        difference: differs(answer, expected, &slices, &nothing, &[]),
    }
}

fn judge_done(answer: Answer, slices: &Slices, call: &FinderCall) -> Judged {
    let hits = call.contigs.len();
    let modelled = hits <= PATIENCE;
    let original = original::finder(call);
    let unclear = modelled && original.as_ref() != Ok(&model::finder(call));
    let (kind, difference) = match original {
        _ if unclear => ("unclear", Some("the original and the model differ".into())),
        Ok(FinderAnswer::Listed { ranges, seed_hits }) => {
            let expected = Ok(kelonbaro::FinderAnswer {
                count: ranges.len() as u32,
                seed_hits,
            });
            let need = needs::finder(call.mode, hits);
            let difference = differs(answer, expected, slices, &need, &ranges);
            (kind(ranges.len()), difference)
        }
        original => ("panic", Some(format!("the original: {original:?}"))),
    };
    Judged {
        kind,
        entries: hits as u64,
        modelled,
        difference,
    }
}

fn differs(
    answer: Answer,
    expected: Answer,
    slices: &Slices,
    need: &FinderRoom,
    ranges: &[Candidate],
) -> Option<String> {
    if answer != expected {
        return Some(two_answers(&answer, &expected));
    }
    let name = slices.misfilled(need, ranges)?;
    Some(format!(
        "{answer:?}, and {name} is left otherwise; expected ranges {ranges:?}"
    ))
}

fn kind(ranges: usize) -> &'static str {
    match ranges {
        0 => "listed 0",
        1 => "listed 1",
        _ => "listed more",
    }
}
