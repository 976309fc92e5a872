//! `oracle antt SEED COUNT`: small random cases as equations about the definitions of crate `rules`, with the original's
//! answers (and the model's refusals, which the original does not have). One row to a line, `NAME : GIVEN ≡ WANTED`;
//! `antt/compare.py` lets the checker compute them.

use std::fmt::Display;

use crate::call::{
    Candidate, FinderAnswer, FinderCall, Mode, Refusal, ScriptAnswer, ScriptCall, SweepAnswer,
    SweepCall,
};
use crate::case::Case;
use crate::generate::{self, Size};
use crate::random::Random;
use crate::{model, original};

/// Longer lists cost the checker more than they show.
const LONGEST: usize = 40;
/// A longer range is not scored start by start: the definition counts all of its positions.
const WIDEST: u32 = 40;

/// A row's kind (the definition it is about) and its two sides.
pub struct Row {
    pub kind: &'static str,
    pub given: String,
    pub wanted: String,
}

/// Prints the rows of `count` cases of each call that are small enough; answers false where the original panicked.
pub fn run(seed: u64, count: u64) -> bool {
    let mut random = Random::new(seed);
    let mut left = [count; 5];
    let mut number = 0u64;
    while left.iter().any(|&n| n > 0) {
        let case = generate::case(&mut random, Size::Small);
        let place = &mut left[call_number(&case)];
        if *place == 0 || longest(&case) > LONGEST {
            continue;
        }
        *place -= 1;
        number += 1;
        let Some(rows) = rows(&case) else {
            eprintln!("the original panicked on {case:?}");
            return false;
        };
        for row in rows {
            println!("{}{number} : {} ≡ {}", row.kind, row.given, row.wanted);
        }
    }
    true
}

fn call_number(case: &Case) -> usize {
    match case {
        Case::Script(_) => 0,
        Case::Sweep(call) => 1 + call.mode as usize,
        Case::Finder(call) => 3 + call.mode as usize,
    }
}

fn longest(case: &Case) -> usize {
    let lengths = match case {
        Case::Script(call) => vec![
            call.query.len(),
            call.coords.len(),
            call.indexes.len(),
            call.kinds.len(),
        ],
        Case::Sweep(call) => vec![
            call.query.len(),
            call.hashes.len(),
            call.starts.len(),
            call.ends.len(),
            call.identities.len(),
        ],
        Case::Finder(call) => vec![
            call.groups.len(),
            call.contigs.len(),
            call.starts.len(),
            call.ends.len(),
        ],
    };
    lengths.into_iter().max().unwrap_or(0)
}

/// The rows of one case; none where the original panicked.
pub fn rows(case: &Case) -> Option<Vec<Row>> {
    match case {
        Case::Script(call) => script_rows(call),
        Case::Sweep(call) => sweep_rows(call),
        Case::Finder(call) => finder_rows(call),
    }
}

fn script_rows(call: &ScriptCall) -> Option<Vec<Row>> {
    let s = format!(
        "(record {{ query = {}; coords = {}; indexes = {}; kinds = {} }})",
        list(&call.query),
        list(&call.coords),
        list(&call.indexes),
        list(&call.kinds)
    );
    let room = format!(
        "(record {{ counts = {}; words = {}; summary = {}; pivots = {}; shareds = {} }})",
        call.room.counts, call.room.words, call.room.summary, call.room.pivots, call.room.shared
    );
    let whole = |wanted| {
        row(
            "scriptcall",
            format!("told_script (script_call {s} {room})"),
            wanted,
        )
    };
    let (pivots, shared, last) = match model::script(call) {
        ScriptAnswer::Refused(refusal) => return Some(vec![whole(refused(refusal))]),
        ScriptAnswer::Done { .. } => match original::script(call) {
            Ok(ScriptAnswer::Done {
                pivots,
                shared,
                last,
            }) => (pivots, shared, last),
            _ => return None,
        },
    };
    let looks: Vec<u32> = pivots
        .iter()
        .zip(&shared)
        .flat_map(|(&pivot, &shared)| [pivot, shared])
        .collect();
    Some(vec![
        row("script", format!("told_looks (looks {s})"), list(&looks)),
        row(
            "moves",
            format!("told_looks (looks_by_moves {s})"),
            list(&looks),
        ),
        whole(done(&[last.0, last.1], &[])),
    ])
}

fn sweep_rows(call: &SweepCall) -> Option<Vec<Row>> {
    let s = sweep_record(call);
    let name = prefix(call.mode);
    let room = format!(
        "(record {{ hashes = {}; counts = {}; coords = {}; words = {}; summary = {} }}){}",
        call.room.hashes,
        call.room.counts,
        call.room.items,
        call.room.words,
        call.room.summary,
        extra(call.mode, call.room.events)
    );
    let kind = ["minimizercall", "intervalcall"][call.mode as usize];
    let whole = |wanted| row(kind, format!("told_sweep ({name}_call {s} {room})"), wanted);
    if let SweepAnswer::Refused(refusal) = model::sweep(call) {
        return Some(vec![whole(refused(refusal))]);
    }
    let answer = told_sweep(&original::sweep(call).ok()?);
    let inside = model::in_premises(call);
    let mut rows = vec![whole(answer.clone())];
    let kind = ["minimizerpremises", "intervalpremises"][call.mode as usize];
    rows.push(row(
        kind,
        format!("{name}_premises {s}"),
        inside.to_string(),
    ));
    if inside && call.range_end.saturating_sub(call.range_start) < WIDEST {
        let kind = ["minimizerscoring", "intervalscoring"][call.mode as usize];
        rows.push(row(
            kind,
            format!("told_sweep ({name}_by_scoring {s})"),
            answer,
        ));
    }
    Some(rows)
}

fn finder_rows(call: &FinderCall) -> Option<Vec<Row>> {
    let f = format!(
        "(record {{ contigs = {}; starts = {}; ends = {}; groups = {}; threshold = {}; minimum = {}; length = {} }})",
        list(&call.contigs),
        list(&call.starts),
        list(&call.ends),
        list(&call.groups),
        call.threshold,
        call.minimum,
        call.length
    );
    let name = prefix(call.mode);
    let room = format!(
        "(record {{ keys = {}; contigs = {}; starts = {}; ends = {} }}){}",
        call.room.keys,
        call.room.contigs,
        call.room.starts,
        call.room.ends,
        extra(call.mode, call.room.end_keys)
    );
    let kind = ["minimizerfindercall", "intervalfindercall"][call.mode as usize];
    let whole = |wanted| {
        row(
            kind,
            format!("told_finder ({name}_finder_call {f} {room})"),
            wanted,
        )
    };
    let (ranges, seed_hits) = match model::finder(call) {
        FinderAnswer::Refused(refusal) => return Some(vec![whole(refused(refusal))]),
        FinderAnswer::Listed { .. } => match original::finder(call) {
            Ok(FinderAnswer::Listed { ranges, seed_hits }) => (ranges, seed_hits),
            _ => return None,
        },
    };
    let entries: Vec<u32> = ranges
        .iter()
        .flat_map(|&Candidate { contig, start, end }| [contig, start, end])
        .collect();
    let kind = ["minimizerfound", "intervalfound"][call.mode as usize];
    Some(vec![
        row(
            kind,
            format!("told_candidates ({name}_found {f})"),
            list(&entries),
        ),
        whole(done(&[ranges.len() as u32, seed_hits], &[])),
    ])
}

fn row(kind: &'static str, given: String, wanted: String) -> Row {
    Row {
        kind,
        given,
        wanted,
    }
}

fn prefix(mode: Mode) -> &'static str {
    match mode {
        Mode::Minimizer => "minimizer",
        Mode::Interval => "interval",
    }
}

/// The length of the buffer that only the interval calls are lent.
fn extra(mode: Mode, length: usize) -> String {
    match mode {
        Mode::Minimizer => String::new(),
        Mode::Interval => format!(" {length}"),
    }
}

fn list<T: Display>(entries: &[T]) -> String {
    let entries: String = entries.iter().map(|entry| format!("{entry} ∷ ")).collect();
    format!("({entries}[])")
}

fn float(value: f64) -> String {
    format!("of_bits binary64 {}", value.to_bits())
}

fn floats(values: &[f64]) -> String {
    list(&values.iter().map(|&value| float(value)).collect::<Vec<_>>())
}

fn refused(refusal: Refusal) -> String {
    format!(
        "told_refused (record {{ number = {}; place = {} }})",
        refusal.number, refusal.place
    )
}

fn done<T: Display>(values: &[T], estimate: &[f64]) -> String {
    format!("told_done {} {}", list(values), floats(estimate))
}

fn told_sweep(answer: &SweepAnswer) -> String {
    match answer {
        SweepAnswer::Refused(refusal) => refused(*refusal),
        SweepAnswer::Nothing(stats) => done(
            &[stats.windows, stats.coords.into(), stats.items.into()],
            &[],
        ),
        SweepAnswer::Placed(place, stats) => done(
            &[
                place.start,
                place.end,
                place.shared.into(),
                place.size.into(),
                stats.windows,
                stats.coords.into(),
                stats.items.into(),
            ],
            &[place.identity, place.upper],
        ),
    }
}

fn sweep_record(call: &SweepCall) -> String {
    format!(
        "(record {{ query = {}; hashes = {}; starts = {}; ends = {}; settings = record {{ kmer = {}; length = {} }}; window = {}; range = record {{ start = {}; end = {} }}; identities = {}; uppers = {}; minimum = {} }})",
        list(&call.query),
        list(&call.hashes),
        list(&call.starts),
        list(&call.ends),
        call.kmer,
        call.length,
        call.window,
        call.range_start,
        call.range_end,
        floats(&call.identities),
        floats(&call.uppers),
        float(call.minimum)
    )
}
