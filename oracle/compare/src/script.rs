//! One script on the proved library, the original and the model, with every byte of the lent slices looked at.

use kelonbaro::{Final, Refusal, Script, ScriptWork};
use oracle::call::{ScriptAnswer, ScriptCall};
use oracle::model::{self, needs, refusals};
use oracle::original;
use oracle::random::Random;

use crate::judged::{first_wrong, two_answers, Judged};
use crate::lent::Lent;

/// The call that is judged: `kelonbaro::script`, or a wrong one that the tests put in its place.
pub type Call =
    fn(Script<'_>, &mut ScriptWork<'_>, &mut [u32], &mut [u32]) -> Result<Final, Refusal>;

/// The model looks afresh after each step; past this many coordinates × steps only the original is asked.
const PATIENCE: usize = 1 << 25;

struct Slices {
    counts: Lent<u32>,
    words: Lent<u64>,
    summary: Lent<u64>,
    pivots: Lent<u32>,
    shared: Lent<u32>,
}

impl Slices {
    fn poisoned(call: &ScriptCall) -> Self {
        let mut random = Random::new(call.indexes.len() as u64 ^ 0x5eed);
        Slices {
            counts: Lent::new(call.room.counts, &mut random, |x| x as u32),
            words: Lent::new(call.room.words, &mut random, |x| x),
            summary: Lent::new(call.room.summary, &mut random, |x| x),
            pivots: Lent::new(call.room.pivots, &mut random, |x| x as u32),
            shared: Lent::new(call.room.shared, &mut random, |x| x as u32),
        }
    }

    fn run(&mut self, proved: Call, call: &ScriptCall) -> Result<Final, Refusal> {
        let given = Script {
            query: &call.query,
            coords: &call.coords,
            indexes: &call.indexes,
            kinds: &call.kinds,
        };
        let mut work = ScriptWork {
            counts: self.counts.slice(),
            words: self.words.slice(),
            summary: self.summary.slice(),
        };
        proved(given, &mut work, self.pivots.slice(), self.shared.slice())
    }

    /// The first slice that is not as a refused call must leave it.
    fn touched(&self) -> Option<&'static str> {
        first_wrong(&[
            ("counts", self.counts.holds(&[])),
            ("words", self.words.holds(&[])),
            ("summary", self.summary.holds(&[])),
            ("pivots", self.pivots.holds(&[])),
            ("shared", self.shared.holds(&[])),
        ])
    }

    /// The first slice that is not as a script that was done must leave it.
    fn misfilled(&self, call: &ScriptCall, pivots: &[u32], shared: &[u32]) -> Option<&'static str> {
        let need = needs::script(call.coords.len(), call.indexes.len());
        first_wrong(&[
            ("counts", self.counts.holds(&vec![0; need.counts])),
            ("words", self.words.holds(&vec![0; need.words])),
            ("summary", self.summary.holds(&vec![0; need.summary])),
            ("pivots", self.pivots.holds(pivots)),
            ("shared", self.shared.holds(shared)),
        ])
    }
}

pub fn judge(proved: Call, call: &ScriptCall) -> Judged {
    let mut slices = Slices::poisoned(call);
    let answer = slices.run(proved, call);
    match refusals::script(call) {
        Err(refusal) => judge_refused(answer, &slices, refusal),
        Ok(()) => judge_done(answer, &slices, call),
    }
}

/// The original has no refusals, so the model alone says which.
fn judge_refused(
    answer: Result<Final, Refusal>,
    slices: &Slices,
    refusal: oracle::call::Refusal,
) -> Judged {
    let expected = Err(Refusal {
        number: refusal.number,
        place: refusal.place,
    });
    let difference = match slices.touched() {
        _ if answer != expected => Some(two_answers(&answer, &expected)),
        Some(name) => Some(format!("refused, and {name} changed")),
        None => None,
    };
    Judged {
        kind: oracle::case::refused(refusal.number),
        entries: 0,
        modelled: true,
        difference,
    }
}

fn judge_done(answer: Result<Final, Refusal>, slices: &Slices, call: &ScriptCall) -> Judged {
    let kind = match call.indexes.len() {
        0 => "done, no step",
        _ => "done",
    };
    let modelled = call.coords.len() * call.indexes.len() <= PATIENCE;
    let difference = differs(answer, slices, call, modelled);
    Judged {
        kind,
        entries: call.indexes.len() as u64,
        modelled,
        difference,
    }
}

fn differs(
    answer: Result<Final, Refusal>,
    slices: &Slices,
    call: &ScriptCall,
    modelled: bool,
) -> Option<String> {
    let original = original::script(call);
    if modelled && original.as_ref() != Ok(&model::script(call)) {
        return Some("the original and the model differ".to_string());
    }
    let Ok(ScriptAnswer::Done {
        pivots,
        shared,
        last,
    }) = original
    else {
        return Some(format!("the original: {original:?}"));
    };
    let expected = Ok(Final {
        pivot: last.0,
        shared: last.1,
    });
    if answer != expected {
        return Some(two_answers(&answer, &expected));
    }
    let name = slices.misfilled(call, &pivots, &shared)?;
    Some(format!(
        "{name} is left otherwise; original pivots {pivots:?}, shared {shared:?}"
    ))
}
