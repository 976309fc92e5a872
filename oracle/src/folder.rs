//! Jobs and finder cases as a folder has them: `NAME.job` with the printed lines in `NAME.expected`, and finder cases in `finders.txt`.

use std::fs;
use std::io;
use std::path::Path;

use crate::call::{Candidate, FinderAnswer, FinderCall, Mode};
use crate::model::needs;

pub struct StoredJob {
    pub name: String,
    pub bytes: Vec<u8>,
    pub expected: String,
}

/// The folder's jobs by name; those with a number for a name in the order of their numbers.
pub fn jobs(folder: &Path) -> io::Result<Vec<StoredJob>> {
    let mut jobs = Vec::new();
    for entry in fs::read_dir(folder)? {
        let path = entry?.path();
        if path.extension().is_some_and(|extension| extension == "job") {
            let name = path.file_stem().unwrap_or_default().to_string_lossy();
            jobs.push(StoredJob {
                name: name.into_owned(),
                bytes: fs::read(&path)?,
                expected: fs::read_to_string(path.with_extension("expected"))?,
            });
        }
    }
    jobs.sort_by_key(|job| (job.name.parse().unwrap_or(u64::MAX), job.name.clone()));
    Ok(jobs)
}

/// The cases of `finders.txt` with their answers; none where the folder has no such file.
pub fn finders(folder: &Path) -> io::Result<Vec<(FinderCall, FinderAnswer)>> {
    let path = folder.join("finders.txt");
    if !path.is_file() {
        return Ok(Vec::new());
    }
    let text = fs::read_to_string(path)?;
    let unreadable = || io::Error::new(io::ErrorKind::InvalidData, "finders.txt");
    text.lines()
        .map(|line| finder(line).ok_or_else(unreadable))
        .collect()
}

/// `F MODE LENGTH MINIMUM THRESHOLD`, the group lengths, contigs, starts and ends, each list after its length, `= 0 SEEDHITS N`, then N times
/// `CONTIG START END`.
fn finder(line: &str) -> Option<(FinderCall, FinderAnswer)> {
    let mut words = line.split(' ');
    expect("F", &mut words)?;
    let mode = match number(&mut words)? {
        0 => Mode::Minimizer,
        _ => Mode::Interval,
    };
    let (length, minimum) = (narrow(&mut words)?, narrow(&mut words)?);
    let threshold = number(&mut words)?;
    let (groups, contigs) = (list(&mut words)?, list(&mut words)?);
    let (starts, ends) = (list(&mut words)?, list(&mut words)?);
    expect("=", &mut words)?;
    expect("0", &mut words)?;
    let seed_hits = narrow(&mut words)?;
    let count = number(&mut words)?;
    let mut range = |_| {
        Some(Candidate {
            contig: narrow(&mut words)?,
            start: narrow(&mut words)?,
            end: narrow(&mut words)?,
        })
    };
    let ranges = (0..count).map(&mut range).collect::<Option<_>>()?;
    let call = FinderCall {
        mode,
        groups,
        minimum,
        length,
        threshold,
        room: needs::finder(mode, contigs.len()),
        contigs,
        starts,
        ends,
    };
    Some((call, FinderAnswer::Listed { ranges, seed_hits }))
}

fn expect<'a>(word: &str, words: &mut impl Iterator<Item = &'a str>) -> Option<()> {
    (words.next()? == word).then_some(())
}

fn number<'a>(words: &mut impl Iterator<Item = &'a str>) -> Option<u64> {
    words.next()?.parse().ok()
}

fn narrow<'a>(words: &mut impl Iterator<Item = &'a str>) -> Option<u32> {
    number(words)?.try_into().ok()
}

fn list<'a>(words: &mut impl Iterator<Item = &'a str>) -> Option<Vec<u32>> {
    let length = number(words)?;
    (0..length).map(|_| narrow(words)).collect()
}
