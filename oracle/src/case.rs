//! One case: a library call run on the original and on the model, and what came of it.

use crate::call::{
    Best, FinderAnswer, FinderCall, Kind, Mode, ScriptAnswer, ScriptCall, SweepAnswer, SweepCall,
};
use crate::{model, original};

#[derive(Clone, Debug, PartialEq)]
pub enum Case {
    Script(ScriptCall),
    Sweep(SweepCall),
    Finder(FinderCall),
}

/// What a case came to.
#[derive(Debug, Default)]
pub struct Judged {
    /// Names for the tally: the answer's kind first.
    pub kinds: Vec<&'static str>,
    /// What the original and the model, or the model's two forms, say differently.
    pub difference: Option<String>,
}

/// How much work (starts × items) scoring every start may cost before it is left out.
pub type Patience = u64;
pub const SMALL_PATIENCE: Patience = 100_000;
pub const LIMIT_PATIENCE: Patience = 200_000_000;

impl Case {
    pub fn kind(&self) -> Kind {
        match self {
            Case::Script(_) => Kind::Script,
            Case::Sweep(call) => Kind::Sweep(call.mode),
            Case::Finder(call) => Kind::Finder(call.mode),
        }
    }

    pub fn call_name(&self) -> &'static str {
        self.kind().name()
    }

    pub fn judge(&self, patience: Patience) -> Judged {
        match self {
            Case::Script(call) => judge_script(call),
            Case::Sweep(call) => judge_sweep(call, patience),
            Case::Finder(call) => judge_finder(call),
        }
    }
}

/// The tally's name of a refusal.
pub fn refused(number: u8) -> &'static str {
    const NAMES: [&str; 9] = [
        "refused 0",
        "refused 1",
        "refused 2",
        "refused 3",
        "refused 4",
        "refused 5",
        "refused 6",
        "refused 7",
        "refused 8",
    ];
    NAMES[number as usize]
}

fn only(kind: &'static str) -> Judged {
    Judged {
        kinds: vec![kind],
        difference: None,
    }
}

/// A refused call is not run on the original, which has no refusals.
fn judge_script(call: &ScriptCall) -> Judged {
    let modelled = model::script(call);
    if let ScriptAnswer::Refused(refusal) = modelled {
        return only(refused(refusal.number));
    }
    let mut judged = only(match call.indexes.len() {
        0 => "done, no step",
        _ => "done",
    });
    let original = original::script(call);
    if original.as_ref() != Ok(&modelled) {
        judged.difference = Some(format!("original {original:?}\n   model {modelled:?}"));
    }
    judged
}

fn judge_sweep(call: &SweepCall, patience: Patience) -> Judged {
    let modelled = model::sweep(call);
    if let SweepAnswer::Refused(refusal) = modelled {
        return only(refused(refusal.number));
    }
    let (best, _) = model::by_steps(call);
    let mut judged = only(sweep_kind(&modelled, best));
    if best.is_some_and(|best| best.first < best.last) {
        judged.kinds.push("best at several positions");
    }
    let original = original::sweep(call);
    let same = matches!(&original, Ok(answer) if same_sweep(answer, &modelled));
    if !same {
        judged.difference = Some(format!("original {original:?}\n   model {modelled:?}"));
    }
    if model::in_premises(call) {
        judge_scoring(call, best, patience, &mut judged);
    }
    judged
}

/// Demand 3: the best by steps is the best by scoring every start.
fn judge_scoring(
    call: &SweepCall,
    by_steps: Option<Best>,
    patience: Patience,
    judged: &mut Judged,
) {
    judged.kinds.push("in demand 3's premises");
    let width = (call.query.len() + call.hashes.len()) as u64;
    if model::starts_to_score(call).saturating_mul(width) > patience {
        return;
    }
    judged.kinds.push("in the premises, every start scored");
    let by_scoring = model::by_scoring(call);
    if by_steps != by_scoring {
        judged.difference = Some(format!(
            "by steps {by_steps:?}\nby scoring every start {by_scoring:?}"
        ));
    }
}

fn sweep_kind(answer: &SweepAnswer, best: Option<Best>) -> &'static str {
    match answer {
        SweepAnswer::Refused(refusal) => refused(refusal.number),
        SweepAnswer::Nothing(stats) if stats.coords == 0 => "none before coordinates",
        SweepAnswer::Nothing(_) if best.is_none() => "none, no best score",
        SweepAnswer::Nothing(_) => "none by identity",
        SweepAnswer::Placed(place, _) if place.upper.is_nan() => "placed, upper bound NaN",
        SweepAnswer::Placed(place, _) if place.shared == 0 => "placed, shared 0",
        SweepAnswer::Placed(..) => "placed",
    }
}

/// Estimates are compared by their bits: a NaN is a value like others here.
pub fn same_sweep(a: &SweepAnswer, b: &SweepAnswer) -> bool {
    use SweepAnswer::{Nothing, Placed, Refused};
    match (a, b) {
        (Refused(a), Refused(b)) => a == b,
        (Nothing(a), Nothing(b)) => a == b,
        (Placed(a, a_stats), Placed(b, b_stats)) => {
            (a.start, a.end, a.shared, a.size) == (b.start, b.end, b.shared, b.size)
                && a.identity.to_bits() == b.identity.to_bits()
                && a.upper.to_bits() == b.upper.to_bits()
                && a_stats == b_stats
        }
        _ => false,
    }
}

/// Up to which position the interval finder's answer is also found by asking every position.
const MOST_ASKED: u32 = 64;

fn judge_finder(call: &FinderCall) -> Judged {
    let modelled = model::finder(call);
    let ranges = match &modelled {
        FinderAnswer::Refused(refusal) => return only(refused(refusal.number)),
        FinderAnswer::Listed { ranges, .. } => ranges,
    };
    let mut judged = only(match ranges.len() {
        0 => "listed 0",
        1 => "listed 1",
        _ => "listed more",
    });
    let original = original::finder(call);
    if original.as_ref() != Ok(&modelled) {
        judged.difference = Some(format!("original {original:?}\n   model {modelled:?}"));
    }
    let few = call.ends.len() <= 16 && call.ends.iter().all(|&end| end <= MOST_ASKED);
    if call.mode == Mode::Interval && few {
        judged.kinds.push("every position asked");
        let asked = model::finder::covered_by_positions(call, MOST_ASKED);
        if &asked != ranges {
            judged.difference = Some(format!("   model {modelled:?}\nby positions {asked:?}"));
        }
    }
    judged
}
