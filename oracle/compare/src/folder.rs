//! The jobs and finder cases of a folder, through the proved calls: the judged case, and what the folder says is to come.

use std::io;
use std::path::Path;
use std::time::Instant;

use oracle::call::{FinderAnswer, FinderCall, Mode, SweepAnswer, SweepCall};
use oracle::case::Case;
use oracle::folder::{self, StoredJob};
use oracle::model::job::read;
use oracle::model::lines::printed;
use oracle::original;

use crate::proved::Proved;
use crate::run::Tally;
use crate::{finder, sweep};

/// Prints what differs, and answers whether nothing did.
pub fn run(folder: &Path) -> bool {
    match compared(folder) {
        Ok(same) => same,
        Err(error) => {
            eprintln!("{}: {error}", folder.display());
            false
        }
    }
}

fn compared(folder: &Path) -> io::Result<bool> {
    let began = Instant::now();
    let (jobs, finders) = (folder::jobs(folder)?, folder::finders(folder)?);
    let mut tally = Tally::default();
    let wrong_jobs = jobs.iter().filter(|job| !job_same(&mut tally, job)).count();
    let wrong_finders = finders
        .iter()
        .filter(|(call, answer)| !finder_same(&mut tally, call, answer))
        .count();
    tally.print(began);
    println!("{} jobs, {wrong_jobs} otherwise", jobs.len());
    println!("{} finder cases, {wrong_finders} otherwise", finders.len());
    Ok(wrong_jobs + wrong_finders == 0 && jobs.len() + finders.len() > 0)
}

/// A job that the reader refuses has no sweep, and its line comes from the reader alone.
fn job_same(tally: &mut Tally, job: &StoredJob) -> bool {
    let judged = match read(&job.bytes) {
        Ok(decoded) => {
            let call = decoded.sweep();
            tally.judge(sweep_of(call.mode), &Case::Sweep(call))
        }
        Err(_) => true,
    };
    let lines = printed(&job.bytes, proved_sweep);
    if lines != job.expected {
        println!("{}: printed\n{lines}expected\n{}", job.name, job.expected);
    }
    judged && lines == job.expected
}

fn sweep_of(mode: Mode) -> Proved {
    match mode {
        Mode::Minimizer => Proved::Sweep(mode, sweep::minimizer),
        Mode::Interval => Proved::Sweep(mode, sweep::interval),
    }
}

fn proved_sweep(call: &SweepCall) -> SweepAnswer {
    let proved = match call.mode {
        Mode::Minimizer => sweep::minimizer,
        Mode::Interval => sweep::interval,
    };
    sweep::told(&sweep::Slices::poisoned(call).run(proved, call))
}

/// The judge holds the proved finder to the original; the folder's answer holds the original.
fn finder_same(tally: &mut Tally, call: &FinderCall, answer: &FinderAnswer) -> bool {
    let proved = match call.mode {
        Mode::Minimizer => Proved::Finder(call.mode, finder::minimizer),
        Mode::Interval => Proved::Finder(call.mode, finder::interval),
    };
    let judged = tally.judge(proved, &Case::Finder(call.clone()));
    let stored = original::finder(call).as_ref() == Ok(answer);
    if !stored {
        println!("a finder case whose stored answer is not the original's");
    }
    judged && stored
}
