//! The stored vectors: calls and jobs with every word that must come back, for a program that has no Rust at hand.
//! Expected answers are the model's; what is not refused must be the original's answer too, or the making stops.

pub(crate) mod draw;
mod finder_cases;
pub mod job_cases;
pub(crate) mod job_fields;
mod script_cases;
mod sweep_cases;
mod words;

use std::collections::BTreeMap;
use std::path::Path;

use crate::call::{FinderAnswer, Mode, Refusal, ScriptAnswer, SweepAnswer};
use crate::case::{Case, SMALL_PATIENCE};
use crate::examples;
use crate::job_command::lines_of;
use crate::model;
use crate::random::Random;

/// Each file draws from this seed plus its number, so that one can change without the others.
pub const SEED: u64 = 286_433_000;

const MAGIC: u64 = u64::from_le_bytes(*b"kelonvec");
const FORM: u64 = 1;

/// No record is longer; a job of one byte too many must fit, with its lines.
const MOST_WORDS: usize = 8_192;
const MOST_JOB_WORDS: usize = 8_256;

/// How often each kind of case stands in a file.
type Census = BTreeMap<String, usize>;

pub struct File {
    pub name: &'static str,
    pub records: Vec<Vec<u64>>,
    pub census: Census,
}

impl File {
    fn begin(name: &'static str) -> Self {
        File {
            name,
            records: Vec::new(),
            census: Census::new(),
        }
    }

    fn add(&mut self, record: Vec<u64>, kinds: Vec<String>) {
        self.records.push(record);
        for kind in kinds {
            *self.census.entry(kind).or_default() += 1;
        }
    }

    fn largest(&self) -> usize {
        self.records.iter().map(Vec::len).max().unwrap_or(0)
    }

    /// Stops the making where a kind has no record or a record is too long.
    fn finish(self, wanted: &[&str], most: usize) -> Self {
        for kind in wanted {
            assert!(
                self.census.contains_key(*kind),
                "{} has no {kind}",
                self.name
            );
        }
        assert!(
            self.largest() <= most,
            "{} has a record too long",
            self.name
        );
        self
    }

    /// Magic, form, number of records, longest record; then the records.
    pub fn bytes(&self) -> Vec<u8> {
        let header = [
            MAGIC,
            FORM,
            self.records.len() as u64,
            self.largest() as u64,
        ];
        let words = header.iter().chain(self.records.iter().flatten());
        words.flat_map(|word| word.to_le_bytes()).collect()
    }
}

pub fn make() -> Vec<File> {
    vec![
        scripts(Random::new(SEED)),
        sweeps(Random::new(SEED + 1), Mode::Minimizer, "minimizer.bin"),
        sweeps(Random::new(SEED + 2), Mode::Interval, "interval.bin"),
        finders(
            Random::new(SEED + 3),
            Mode::Minimizer,
            "minimizer_finder.bin",
        ),
        finders(Random::new(SEED + 4), Mode::Interval, "interval_finder.bin"),
        jobs(Random::new(SEED + 5)),
    ]
}

/// Writes the files and says what is in them.
pub fn write(folder: &Path) -> bool {
    for file in make() {
        let path = folder.join(file.name);
        if let Err(error) = std::fs::write(&path, file.bytes()) {
            eprintln!("{}: {error}", path.display());
            return false;
        }
        report(&file);
    }
    true
}

/// Whether the folder holds what would be made now.
pub fn check(folder: &Path) -> bool {
    let differs = |file: &File| {
        let held = std::fs::read(folder.join(file.name)).unwrap_or_default();
        held != file.bytes()
    };
    let differing: Vec<File> = make().into_iter().filter(differs).collect();
    for file in &differing {
        println!("{} is not what is made now", file.name);
    }
    differing.is_empty()
}

fn report(file: &File) {
    let (records, largest) = (file.records.len(), file.largest());
    let bytes = file.bytes().len();
    println!(
        "{}: {records} records, the longest {largest} words, {bytes} bytes",
        file.name
    );
    for (kind, count) in &file.census {
        println!("  {kind}: {count}");
    }
}

/// The original's answer is the model's, and scoring every start says the same where it may.
fn assert_agreed(case: &Case) {
    let judged = case.judge(SMALL_PATIENCE);
    if let Some(difference) = judged.difference {
        panic!("{case:?}\n{difference}");
    }
}

/// A place above 1 tells apart a program that answers 0, or the first pair of neighbours, always.
fn refused(refusal: &Refusal) -> Vec<String> {
    let mut kinds = vec![format!("refused {}", refusal.number)];
    if refusal.place > 1 {
        kinds.push(format!("refused {} above place 1", refusal.number));
    }
    kinds
}

fn owned(kinds: Vec<&'static str>) -> Vec<String> {
    kinds.into_iter().map(str::to_string).collect()
}

/// Those of the paper's worked examples that are of one sort.
fn worked<C>(sort: impl Fn(Case) -> Option<C>) -> impl Iterator<Item = C> {
    let cases = examples::all().into_iter().map(|example| example.case);
    cases.filter_map(sort)
}

fn scripts(mut random: Random) -> File {
    let mut file = File::begin("script.bin");
    let worked = worked(|case| match case {
        Case::Script(call) => Some(call),
        _ => None,
    });
    for call in worked.chain(script_cases::cases(&mut random)) {
        assert_agreed(&Case::Script(call.clone()));
        let answer = model::script(&call);
        let kinds = match &answer {
            ScriptAnswer::Refused(refusal) if refusal.number == 6 => {
                let why = script_cases::shows_6(&call, refusal.place);
                [refused(refusal), vec![why.to_string()]].concat()
            }
            ScriptAnswer::Refused(refusal) => refused(refusal),
            ScriptAnswer::Done { .. } => owned(script_cases::shows(&call)),
        };
        file.add(words::script(&call, &answer), kinds);
    }
    file.finish(script_cases::KINDS, MOST_WORDS)
}

fn sweeps(mut random: Random, mode: Mode, name: &'static str) -> File {
    let mut file = File::begin(name);
    let worked = worked(|case| match case {
        Case::Sweep(call) if call.mode == mode => Some(call),
        _ => None,
    });
    for call in worked.chain(sweep_cases::cases(&mut random, mode)) {
        assert_agreed(&Case::Sweep(call.clone()));
        let answer = model::sweep(&call);
        let kinds = match &answer {
            SweepAnswer::Refused(refusal) => refused(refusal),
            _ => owned(sweep_cases::shows(&call, &answer)),
        };
        file.add(words::sweep(&call, &answer), kinds);
    }
    file.finish(&sweep_cases::kinds(mode), MOST_WORDS)
}

fn finders(mut random: Random, mode: Mode, name: &'static str) -> File {
    let mut file = File::begin(name);
    let worked = worked(|case| match case {
        Case::Finder(call) if call.mode == mode => Some(call),
        _ => None,
    });
    for call in worked.chain(finder_cases::cases(&mut random, mode)) {
        assert_agreed(&Case::Finder(call.clone()));
        let answer = model::finder(&call);
        let kinds = match &answer {
            FinderAnswer::Refused(refusal) => refused(refusal),
            FinderAnswer::Listed { ranges, .. } => owned(finder_cases::shows(&call, ranges)),
        };
        file.add(words::finder(&call, &answer), kinds);
    }
    file.finish(&finder_cases::kinds(mode), MOST_WORDS)
}

fn jobs(mut random: Random) -> File {
    let mut file = File::begin("jobs.bin");
    for input in job_cases::cases(&mut random) {
        let lines = lines_of(&input);
        let kinds = job_cases::shows(&input, &lines);
        file.add(words::job(&input.bytes, input.failed, &lines), kinds);
    }
    file.finish(job_cases::KINDS, MOST_JOB_WORDS)
}
