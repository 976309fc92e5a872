//! Makes a case that shows a difference as small as it goes: runs of entries are dropped, numbers lowered, as long as
//! some difference stays.

use std::ops::Range;
use std::time::{Duration, Instant};

use crate::call::{FinderCall, ScriptCall, SweepCall};
use crate::case::{Case, Patience};
use crate::model::needs;

/// Bounds the work on large cases.
const LONGEST: Duration = Duration::from_secs(15);

pub fn shrunk(case: &Case, patience: Patience) -> Case {
    shrunk_while(case, |case| case.judge(patience).difference.is_some())
}

/// As small as it goes while `stays` holds.
pub fn shrunk_while(case: &Case, stays: impl Fn(&Case) -> bool) -> Case {
    let began = Instant::now();
    let in_time = |_: &Case| began.elapsed() < LONGEST;
    let mut best = case.clone();
    loop {
        let next = smaller(&best).take_while(in_time).find(&stays);
        match next {
            Some(next) => best = next,
            None => return best,
        }
    }
}

/// A step towards a smaller call. Applied one by one: a large call is copied only for the step that is tried.
type Change<Call> = Box<dyn Fn(&mut Call)>;

/// Cases a step smaller, the greatest steps first, with buffers as long as needed.
fn smaller(case: &Case) -> Box<dyn Iterator<Item = Case> + '_> {
    match case {
        Case::Script(call) => Box::new(script_changes(call).into_iter().map(|change| {
            let mut call = call.clone();
            change(&mut call);
            call.room = needs::script(call.coords.len(), call.indexes.len());
            Case::Script(call)
        })),
        Case::Sweep(call) => Box::new(sweep_changes(call).into_iter().map(|change| {
            let mut call = call.clone();
            change(&mut call);
            call.room = needs::sweep(call.mode, call.query.len(), call.hashes.len());
            Case::Sweep(call)
        })),
        Case::Finder(call) => Box::new(finder_changes(call).into_iter().map(|change| {
            let mut call = call.clone();
            change(&mut call);
            call.room = needs::finder(call.mode, call.contigs.len());
            Case::Finder(call)
        })),
    }
}

/// Runs that may be dropped from a list of this length: halves, quarters and so on to single entries.
fn runs(length: usize) -> Vec<Range<usize>> {
    let mut runs = Vec::new();
    let mut size = length.div_ceil(2);
    while size > 0 {
        let starts = (0..length).step_by(size);
        runs.extend(starts.map(|from| from..length.min(from + size)));
        size = if size == 1 { 0 } else { size.div_ceil(2) };
    }
    runs
}

fn drop_run<T>(list: &mut Vec<T>, run: &Range<usize>) {
    list.drain(run.start.min(list.len())..run.end.min(list.len()));
}

/// Changes that drop a run from lists of this length.
fn drops<Call: 'static>(length: usize, change: fn(&mut Call, &Range<usize>)) -> Vec<Change<Call>> {
    let drop = |run| -> Change<Call> { Box::new(move |call| change(call, &run)) };
    runs(length).into_iter().map(drop).collect()
}

/// Lower numbers to try in the place of one.
fn lower(number: u64) -> Vec<u64> {
    let mut lower = vec![0, number / 2, number.saturating_sub(1)];
    lower.dedup();
    lower.retain(|&n| n < number);
    lower
}

/// Entries are lowered one by one only where there are few.
const FEW: usize = 24;

/// Changes that lower one entry of a list.
fn lowers<Call: 'static, T>(list: &[T], of: fn(&mut Call) -> &mut Vec<T>) -> Vec<Change<Call>>
where
    T: Copy + Into<u64> + TryFrom<u64> + 'static,
{
    let mut changes: Vec<Change<Call>> = Vec::new();
    for (i, &entry) in list.iter().enumerate().take(FEW) {
        for value in lower(entry.into()) {
            if let Ok(value) = T::try_from(value) {
                changes.push(Box::new(move |call| of(call)[i] = value));
            }
        }
    }
    changes
}

/// Changes that lower one number.
fn lowers_number<Call: 'static>(number: u32, of: fn(&mut Call) -> &mut u32) -> Vec<Change<Call>> {
    let lower = lower(u64::from(number)).into_iter();
    lower
        .map(|value| -> Change<Call> { Box::new(move |call| *of(call) = value as u32) })
        .collect()
}

fn script_changes(call: &ScriptCall) -> Vec<Change<ScriptCall>> {
    let mut changes: Vec<Change<ScriptCall>> = Vec::new();
    if call.coords.iter().copied().ne(1..=call.coords.len() as u64) {
        changes.push(Box::new(renumber));
    }
    changes.extend(drops(call.indexes.len(), |c: &mut ScriptCall, run| {
        drop_run(&mut c.indexes, run);
        drop_run(&mut c.kinds, run);
    }));
    changes.extend(drops(call.query.len(), |c: &mut ScriptCall, run| {
        drop_run(&mut c.query, run)
    }));
    changes.extend(drops(call.coords.len(), drop_coords));
    changes.extend(lowers(&call.indexes, |c: &mut ScriptCall| &mut c.indexes));
    changes
}

/// Gives the coordinates the hashes 1, 2, 3, …
fn renumber(call: &mut ScriptCall) {
    for hash in &mut call.query {
        *hash = 1 + call.coords.partition_point(|coord| coord < hash) as u64;
    }
    call.coords = (1..=call.coords.len() as u64).collect();
}

/// Drops coordinates with their query hashes and steps; later steps keep their hash.
fn drop_coords(call: &mut ScriptCall, run: &Range<usize>) {
    let dropped: Vec<u64> = call.coords.drain(run.clone()).collect();
    call.query
        .retain(|hash| dropped.binary_search(hash).is_err());
    let steps = call.indexes.iter().zip(&call.kinds);
    let kept = steps.filter(|step| !run.contains(&(*step.0 as usize)));
    let moved = kept.map(|(&index, &kind)| match (index as usize) < run.start {
        true => (index, kind),
        false => (index - run.len() as u32, kind),
    });
    (call.indexes, call.kinds) = moved.unzip();
}

fn sweep_changes(call: &SweepCall) -> Vec<Change<SweepCall>> {
    let mut changes = drops(call.hashes.len(), |c: &mut SweepCall, run| {
        drop_run(&mut c.hashes, run);
        drop_run(&mut c.starts, run);
        drop_run(&mut c.ends, run);
    });
    changes.extend(drops(call.query.len(), |c: &mut SweepCall, run| {
        drop_run(&mut c.query, run)
    }));
    changes.extend(drops(call.identities.len(), |c: &mut SweepCall, run| {
        drop_run(&mut c.identities, run);
        drop_run(&mut c.uppers, run);
    }));
    changes.extend(lowers_number(call.kmer, |c: &mut SweepCall| &mut c.kmer));
    changes.extend(lowers_number(call.window, |c: &mut SweepCall| {
        &mut c.window
    }));
    changes.extend(lowers_number(call.length, |c: &mut SweepCall| {
        &mut c.length
    }));
    changes.extend(lowers_number(call.range_start, |c: &mut SweepCall| {
        &mut c.range_start
    }));
    changes.extend(lowers_number(call.range_end, |c: &mut SweepCall| {
        &mut c.range_end
    }));
    changes.extend(lowers(&call.starts, |c: &mut SweepCall| &mut c.starts));
    changes.extend(lowers(&call.ends, |c: &mut SweepCall| &mut c.ends));
    changes.extend(lowers(&call.hashes, |c: &mut SweepCall| &mut c.hashes));
    changes.extend(lowers(&call.query, |c: &mut SweepCall| &mut c.query));
    if call.minimum.to_bits() != 0 {
        changes.push(Box::new(|c| c.minimum = 0.0));
    }
    changes
}

fn finder_changes(call: &FinderCall) -> Vec<Change<FinderCall>> {
    let mut changes = drops(call.contigs.len(), drop_hits);
    changes.extend(drops(call.groups.len(), |c: &mut FinderCall, run| {
        drop_run(&mut c.groups, run)
    }));
    changes.extend(lowers_number(call.minimum, |c: &mut FinderCall| {
        &mut c.minimum
    }));
    changes.extend(lowers_number(call.length, |c: &mut FinderCall| {
        &mut c.length
    }));
    for threshold in lower(call.threshold) {
        changes.push(Box::new(move |c| c.threshold = threshold));
    }
    changes.extend(lowers(&call.contigs, |c: &mut FinderCall| &mut c.contigs));
    changes.extend(lowers(&call.starts, |c: &mut FinderCall| &mut c.starts));
    changes.extend(lowers(&call.ends, |c: &mut FinderCall| &mut c.ends));
    changes
}

/// Drops hits from the lists and from the groups that held them.
fn drop_hits(call: &mut FinderCall, run: &Range<usize>) {
    let mut from = 0;
    for length in &mut call.groups {
        let to = from + *length as usize;
        let gone = run.end.min(to).saturating_sub(run.start.max(from));
        *length -= gone as u32;
        from = to;
    }
    drop_run(&mut call.contigs, run);
    drop_run(&mut call.starts, run);
    drop_run(&mut call.ends, run);
}
