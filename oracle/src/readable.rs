//! A case in document 01's notation: items `position:hash`, intervals `hash[start,end)`, steps `+1` and `-1`.

use std::fmt::Write;

use crate::call::{FinderCall, Mode, ScriptCall, SweepCall};
use crate::case::Case;

pub fn readable(case: &Case) -> String {
    let text = match case {
        Case::Script(call) => script(call),
        Case::Sweep(call) => sweep(call),
        Case::Finder(call) => finder(call),
    };
    format!("{}\n{text}", case.call_name())
}

fn script(call: &ScriptCall) -> String {
    let steps = call.indexes.iter().zip(&call.kinds);
    let steps = steps.map(|(index, kind)| match kind {
        0 => format!("-{index}"),
        _ => format!("+{index}"),
    });
    format!(
        "  query {}\n  coordinates {}\n  steps {}",
        numbers(&call.query),
        numbers(&call.coords),
        spaced(steps)
    )
}

fn sweep(call: &SweepCall) -> String {
    let items = (0..call.hashes.len()).map(|i| match call.mode {
        Mode::Minimizer => format!("{}:{}", call.starts[i], call.hashes[i]),
        Mode::Interval => format!("{}[{},{})", call.hashes[i], call.starts[i], call.ends[i]),
    });
    let estimates = call.identities.iter().zip(&call.uppers);
    let estimates = estimates.map(|(identity, upper)| format!("({identity},{upper})"));
    let window = match call.mode {
        Mode::Minimizer => format!(", window {}", call.window),
        Mode::Interval => String::new(),
    };
    format!(
        "  k-mer {}{window}, length {}, range {}..{}, minimum identity {}\n  query {}\n  items {}\n  estimates {}",
        call.kmer,
        call.length,
        call.range_start,
        call.range_end,
        call.minimum,
        numbers(&call.query),
        spaced(items),
        spaced(estimates)
    )
}

fn finder(call: &FinderCall) -> String {
    let hits = (0..call.contigs.len()).map(|i| match call.mode {
        Mode::Minimizer => format!("{}:{}", call.contigs[i], call.starts[i]),
        Mode::Interval => format!("{}:[{},{})", call.contigs[i], call.starts[i], call.ends[i]),
    });
    let length = match call.mode {
        Mode::Minimizer => format!(", length {}", call.length),
        Mode::Interval => String::new(),
    };
    format!(
        "  minimum {}{length}, threshold {}\n  groups {}\n  hits (contig first) {}",
        call.minimum,
        call.threshold,
        numbers(&call.groups),
        spaced(hits)
    )
}

fn spaced(words: impl Iterator<Item = String>) -> String {
    words.collect::<Vec<String>>().join(" ")
}

/// A list of numbers; four or more that follow each other are shown as `first..=last`.
fn numbers<T: Copy + Into<u64>>(list: &[T]) -> String {
    let list: Vec<u64> = list.iter().map(|&n| n.into()).collect();
    let mut text = String::new();
    for run in list.chunk_by(|a, b| a.checked_add(1) == Some(*b)) {
        let shown = match run {
            [first, _, _, .., last] => format!("{first}..={last} "),
            _ => spaced(run.iter().map(u64::to_string)) + " ",
        };
        let _ = write!(text, "{shown}");
    }
    text.trim_end().to_string()
}
