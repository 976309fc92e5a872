//! The inputs that the program is run on.

use crate::call::Mode;
use crate::model::job::{Item, Job, JOB_LIMIT, VERSION};
use crate::random::Random;
use crate::vectors::draw::index;
use crate::vectors::job_cases::{self, ended, full_job, Input};
use crate::vectors::job_fields::{field, in_pieces, whole};

#[derive(Clone, Copy, PartialEq, Eq, PartialOrd, Ord)]
pub enum Kind {
    Empty,
    Limit,
    Minimizer,
    Interval,
    Library,
    Damaged,
    Cut,
    Byte,
    Failed,
    Parts,
}

impl Kind {
    pub fn name(self) -> &'static str {
        match self {
            Kind::Empty => "empty input",
            Kind::Limit => "at the limits",
            Kind::Minimizer => "whole, minimizer",
            Kind::Interval => "whole, interval",
            Kind::Library => "for the library to refuse",
            Kind::Damaged => "damaged",
            Kind::Cut => "a small job cut",
            Kind::Byte => "a small job, one byte other",
            Kind::Failed => "failed read",
            Kind::Parts => "in parts, with pauses",
        }
    }
}

pub struct Run {
    pub kind: Kind,
    pub input: Input,
    /// How many bytes are there when the program starts; the others come later, in parts.
    pub at_once: usize,
}

fn run(kind: Kind, input: Input) -> Run {
    let at_once = input.bytes.len();
    Run {
        kind,
        input,
        at_once,
    }
}

/// The empty input, and B2's job in parts.
pub fn front() -> Vec<Run> {
    let b2 = |at_once| Run {
        kind: Kind::Parts,
        input: ended(job_cases::b2()),
        at_once,
    };
    vec![run(Kind::Empty, ended(vec![])), b2(0), b2(50), b2(166)]
}

pub fn at_the_limits() -> impl Iterator<Item = Run> {
    let limits = [
        limits(Mode::Minimizer),
        limits(Mode::Interval),
        long_fields(),
    ];
    let limits = limits.into_iter().flatten();
    limits.map(|bytes| run(Kind::Limit, ended(bytes)))
}

/// With as much as the program takes, with one more of each, and of the most bytes that a job may have, one fewer and more.
fn limits(mode: Mode) -> Vec<Vec<u8>> {
    let make = |hashes, items, estimates| full_job(mode, hashes, items, estimates);
    let full = whole(&make(512, 2_048, 513)).concat();
    // Fields of three bytes fill a job up, so its length must be right by three.
    let longest = match mode {
        Mode::Minimizer => job_cases::filled(&make(510, 2_048, 513)),
        Mode::Interval => job_cases::filled(&make(512, 2_048, 513)),
    };
    let more = [
        (513, 0, 514),
        (512, 2_049, 513),
        (512, 2_048, 514),
        (513, 2_049, 514),
    ];
    let more =
        more.map(|(hashes, items, estimates)| whole(&make(hashes, items, estimates)).concat());
    let lengths = [
        JOB_LIMIT - 1,
        JOB_LIMIT,
        JOB_LIMIT + 1,
        JOB_LIMIT + 2,
        100_000,
        2 * JOB_LIMIT,
    ];
    let mut jobs = more.to_vec();
    for length in lengths {
        jobs.push(of_length(&full, length));
        jobs.push(of_length(&longest, length));
    }
    jobs.push(full);
    jobs
}

/// Cut, or followed by zeros.
fn of_length(job: &[u8], length: usize) -> Vec<u8> {
    let mut bytes = job.to_vec();
    bytes.resize(length, 0);
    bytes
}

/// One field that is all the job, known and unknown; a header that says more than any job has; no field at all.
fn long_fields() -> Vec<Vec<u8>> {
    let data = vec![1; JOB_LIMIT - 3];
    vec![
        field(VERSION, &data),
        field(0x55, &data),
        of_length(&[VERSION, 0xff, 0xff], JOB_LIMIT),
        of_length(&[VERSION, 0xff, 0xff], JOB_LIMIT + 1),
        vec![0; JOB_LIMIT],
        vec![0xff; JOB_LIMIT],
        vec![0xff; JOB_LIMIT + 1],
    ]
}

/// One drawn input of any kind.
pub fn any(random: &mut Random) -> Run {
    match random.below(1_000) {
        0 => run(Kind::Limit, ended(full(random))),
        1..=4 => parts(random),
        5..=399 => drawn(random),
        400..=499 => run(Kind::Library, ended(job_cases::refused(random))),
        500..=749 => run(Kind::Damaged, ended(damaged(random))),
        750..=799 => small_cut(random),
        800..=899 => small_byte(random),
        _ => run(Kind::Failed, job_cases::failing(random)),
    }
}

/// A whole job; one in a hundred is as large as real ones.
fn drawn(random: &mut Random) -> Run {
    let job = match random.once_in(100) {
        true => job_cases::medium_job(random),
        false => job_cases::small_job(random),
    };
    let kind = match job.mode {
        Mode::Minimizer => Kind::Minimizer,
        Mode::Interval => Kind::Interval,
    };
    run(kind, ended(in_pieces(random, &job).concat()))
}

/// A drawn job of 512 hashes, 2,048 items and 513 estimates, now and then with one more.
fn full(random: &mut Random) -> Vec<u8> {
    let mut job = job_cases::limit_job(random);
    match random.below(8) {
        0 => job.query.push(u64::MAX),
        1 => one_item_more(&mut job),
        2 => job.estimates.push(job.estimates[0]),
        _ => (),
    }
    in_pieces(random, &job).concat()
}

fn one_item_more(job: &mut Job) {
    let last = job.items[job.items.len() - 1];
    job.items.push(Item { hash: 7, ..last });
}

/// Some of it when the program starts, the rest later.
fn parts(random: &mut Random) -> Run {
    let mut run = drawn(random);
    run.kind = Kind::Parts;
    run.at_once = index(random, run.at_once);
    run
}

fn small_cut(random: &mut Random) -> Run {
    let mut job = one_of_the_dozen(random);
    job.truncate(index(random, job.len()));
    run(Kind::Cut, ended(job))
}

fn small_byte(random: &mut Random) -> Run {
    let mut job = one_of_the_dozen(random);
    let at = index(random, job.len());
    job[at] ^= random.within(1, 255) as u8;
    run(Kind::Byte, ended(job))
}

fn one_of_the_dozen(random: &mut Random) -> Vec<u8> {
    let mut jobs = dozen();
    let at = index(random, jobs.len());
    jobs.swap_remove(at)
}

/// By its fields, by its bytes, or by its parts.
fn damaged(random: &mut Random) -> Vec<u8> {
    match random.below(3) {
        0 => job_cases::damaged(random),
        1 => job_cases::changed(random),
        _ => mangled(random),
    }
}

/// One to four times: a part is lost, comes twice, is noise, or belongs to another job.
fn mangled(random: &mut Random) -> Vec<u8> {
    let mut bytes = job_cases::drawn(random).concat();
    for _ in 0..random.within(1, 4) {
        let from = index(random, bytes.len() + 1);
        let to = from + index(random, bytes.len() - from + 1).min(40);
        let part: Vec<u8> = match random.below(4) {
            0 => vec![],
            1 => bytes[from..to].repeat(2),
            2 => (from..to).map(|_| random.next() as u8).collect(),
            _ => job_cases::drawn(random).concat(),
        };
        bytes.splice(from..to, part);
    }
    bytes
}

/// The worked cases, and drawn jobs that are small too.
pub fn dozen() -> Vec<Vec<u8>> {
    let worked = job_cases::worked();
    let mut jobs: Vec<Vec<u8>> = worked.iter().map(|job| whole(job).concat()).collect();
    let mut random = Random::new(12);
    while jobs.len() < 12 {
        let job = job_cases::drawn(&mut random).concat();
        if job.len() < 170 {
            jobs.push(job);
        }
    }
    jobs
}

/// Every cut of a job, and every other value of each of its bytes.
pub fn damage(job: &[u8]) -> impl Iterator<Item = Run> + '_ {
    let cuts = (0..job.len()).map(|length| run(Kind::Cut, ended(job[..length].to_vec())));
    let bytes = (0..job.len()).flat_map(move |at| {
        (1..=255).map(move |other| {
            let mut bytes = job.to_vec();
            bytes[at] ^= other;
            run(Kind::Byte, ended(bytes))
        })
    });
    cuts.chain(bytes)
}
