//! Jobs: the worked cases, drawn ones in pieces, each fault in them, every cut of one, those at the limits, and reads
//! that fail.

use super::draw::{index, repeat_neighbour, spoilt, swap_neighbours, Fault};
use super::job_fields::{field, in_pieces, whole, Fields};
use super::sweep_cases;
use crate::call::{Mode, SweepCall};
use crate::case::Case;
use crate::examples;
use crate::model::job::{self, Item, Job, Pair, END, ITEMS, JOB_LIMIT, MODE, VERSION};
use crate::random::Random;

/// The bytes that were read, and whether reading then failed instead of coming to the end.
pub struct Input {
    pub bytes: Vec<u8>,
    pub failed: bool,
}

pub fn cases(random: &mut Random) -> Vec<Input> {
    let b2 = b2();
    let mut jobs: Vec<Vec<u8>> = worked().iter().map(|job| whole(job).concat()).collect();
    jobs.extend((0..160).map(|_| drawn(random).concat()));
    let refused = spoilt(random, small_job, JOB_FAULTS, 6);
    jobs.extend(refused.iter().map(|job| whole(job).concat()));
    let damaged = spoilt(random, drawn, FIELD_FAULTS, 6);
    jobs.extend(damaged.iter().map(|fields| fields.concat()));
    jobs.extend((0..b2.len()).map(|length| b2[..length].to_vec()));
    jobs.extend((0..6).map(|_| medium(random).concat()));
    jobs.extend(at_the_limits());
    let mut inputs: Vec<Input> = jobs.into_iter().map(ended).collect();
    inputs.extend((0..40).map(|_| failing(random)));
    inputs.push(failed(b2));
    inputs
}

/// One drawn input of any sort, for the comparison of whole runs.
pub fn any(random: &mut Random) -> Input {
    let bytes = match random.below(8) {
        0 => cut(drawn(random).concat(), random),
        1..=2 => damaged(random),
        3 => changed(random),
        4 => refused(random),
        _ => drawn(random).concat(),
    };
    match random.once_in(10) {
        true => failed(bytes),
        false => ended(bytes),
    }
}

pub(crate) fn ended(bytes: Vec<u8>) -> Input {
    Input {
        bytes,
        failed: false,
    }
}

fn failed(bytes: Vec<u8>) -> Input {
    Input {
        bytes,
        failed: true,
    }
}

pub(crate) fn failing(random: &mut Random) -> Input {
    let fields = drawn(random).concat();
    failed(match random.below(3) {
        0 => fields,
        1 => cut(fields, random),
        _ => damaged(random),
    })
}

fn cut(mut bytes: Vec<u8>, random: &mut Random) -> Vec<u8> {
    bytes.truncate(index(random, bytes.len()));
    bytes
}

pub(crate) fn damaged(random: &mut Random) -> Vec<u8> {
    let mut fields = drawn(random);
    random.pick(FIELD_FAULTS)(&mut fields, random);
    fields.concat()
}

/// Some bytes are others.
pub(crate) fn changed(random: &mut Random) -> Vec<u8> {
    let mut bytes = drawn(random).concat();
    for _ in 0..random.within(1, 3) {
        let at = index(random, bytes.len());
        let byte = random.next() as u8;
        bytes[at] = random.pick(&[0, 1, 2, 6, 7, 16, 255, byte]);
    }
    bytes
}

/// A whole file that the library has a reason to refuse.
pub(crate) fn refused(random: &mut Random) -> Vec<u8> {
    let mut job = small_job(random);
    random.pick(JOB_FAULTS)(&mut job, random);
    whole(&job).concat()
}

/// The sweeps among the worked examples, in the paper's order: B1, B2, C, D, E, F, G.
pub(crate) fn worked() -> Vec<Job> {
    let sweeps = examples::all()
        .into_iter()
        .filter_map(|example| match example.case {
            Case::Sweep(call) => Some(job_of(&call)),
            _ => None,
        });
    sweeps.collect()
}

/// The job of B2 that the paper gives the lines of.
pub fn b2() -> Vec<u8> {
    whole(&worked()[1]).concat()
}

fn job_of(call: &SweepCall) -> Job {
    let end = |i: usize| call.ends.get(i).copied().unwrap_or(0);
    let items = call.hashes.iter().zip(&call.starts).enumerate();
    let estimates = call.identities.iter().zip(&call.uppers);
    Job {
        mode: call.mode,
        kmer: call.kmer,
        window: call.window,
        length: call.length,
        range_start: call.range_start,
        range_end: call.range_end,
        minimum_bits: call.minimum.to_bits(),
        query: call.query.clone(),
        items: items
            .map(|(i, (&hash, &start))| Item {
                hash,
                start,
                end: end(i),
            })
            .collect(),
        estimates: estimates
            .map(|(identity, upper)| pair(identity.to_bits(), upper.to_bits()))
            .collect(),
    }
}

fn pair(identity_bits: u64, upper_bits: u64) -> Pair {
    Pair {
        identity_bits,
        upper_bits,
    }
}

/// NaNs are given a payload and a sign now and then: a job may carry any.
pub(crate) fn small_job(random: &mut Random) -> Job {
    let mode = random.pick(&[Mode::Minimizer, Mode::Interval]);
    let mut job = job_of(&sweep_cases::small(random, mode));
    for pair in &mut job.estimates {
        for bits in [&mut pair.identity_bits, &mut pair.upper_bits] {
            if random.once_in(6) {
                *bits = 0x7ff0_0000_0000_0001 | random.next() & 0x800f_ffff_ffff_ffff;
            }
        }
    }
    job
}

pub(crate) fn drawn(random: &mut Random) -> Fields {
    let job = small_job(random);
    in_pieces(random, &job)
}

pub(crate) fn medium_job(random: &mut Random) -> Job {
    let mode = random.pick(&[Mode::Minimizer, Mode::Interval]);
    job_of(&sweep_cases::medium(random, mode))
}

fn medium(random: &mut Random) -> Fields {
    let job = medium_job(random);
    in_pieces(random, &job)
}

/// With as many query hashes, items and estimates as the program takes.
pub(crate) fn limit_job(random: &mut Random) -> Job {
    let mode = random.pick(&[Mode::Minimizer, Mode::Interval]);
    let mut job = job_of(&sweep_cases::limit(random, mode));
    job.estimates.truncate(513);
    job
}

/// What the file can say and the library refuses: 2, 4, 5, 7.
const JOB_FAULTS: &[Fault<Job>] = &[
    |job, _| job.kmer = 0,
    |job, _| job.window = 0,
    |job, random| swap_neighbours(random, &mut job.query),
    |job, random| repeat_neighbour(random, &mut job.query),
    |job, random| swap_neighbours(random, &mut job.items),
    |job, random| {
        let rows = index(random, job.query.len() + 1);
        job.estimates.truncate(rows);
    },
];

const FIELD_FAULTS: &[Fault<Fields>] = &[
    |fields, random| {
        fields.remove(index(random, fields.len()));
    },
    |fields, random| {
        let at = index(random, fields.len());
        fields.insert(at, fields[at].clone());
    },
    |fields, random| swap_neighbours(random, fields),
    |fields, random| {
        let unknown = field(random.pick(&[0, 8, 9, 0x86, 0xfe]), &[1, 2]);
        fields.insert(index(random, fields.len()), unknown);
    },
    |fields, random| resize(fields, random, 1),
    |fields, random| resize(fields, random, -1),
    |fields, random| fields[0] = field(VERSION, &[random.pick(&[0, 2, 255])]),
    |fields, random| fields[1] = field(MODE, &[random.pick(&[2, 255])]),
    |fields, random| *fields.last_mut().unwrap() = field(END, &[random.next() as u8]),
    |fields, random| fields.push(vec![random.next() as u8; 3]),
    // The header alone says more or less than there is.
    |fields, random| {
        let at = index(random, fields.len());
        fields[at][1] = fields[at][1].wrapping_add(random.pick(&[1, 12, 255]));
    },
    |fields, random| {
        let at = index(random, fields.len());
        fields[at][0] = random.next() as u8;
    },
];

/// A field's data a byte longer or shorter, and its header with it.
fn resize(fields: &mut Fields, random: &mut Random, by: i32) {
    let at = index(random, fields.len());
    let mut data = fields[at][3..].to_vec();
    match by {
        1 => data.push(1),
        _ => drop(data.pop()),
    }
    fields[at] = field(fields[at][0], &data);
}

/// Jobs with as much as the program takes, with one more of each, and of the most bytes a job may have.
fn at_the_limits() -> Vec<Vec<u8>> {
    let full_job = |hashes, items, estimates| full_job(Mode::Interval, hashes, items, estimates);
    let full = full_job(512, 2_048, 513);
    vec![
        filled(&full),
        whole(&full_job(513, 0, 513)).concat(),
        [&whole(&full).concat()[..], &vec![0; JOB_LIMIT + 1]].concat()[..JOB_LIMIT + 1].to_vec(),
        whole(&full_job(0, 2_049, 1)).concat(),
        whole(&full_job(0, 0, 514)).concat(),
    ]
}

/// A job whose intervals cover each other in places, hashes in the upper half.
pub(crate) fn full_job(mode: Mode, hashes: u64, items: u32, estimates: u64) -> Job {
    let hash = |i: u64| (1 << 63) + 3 * i;
    let item = |i: u32| Item {
        hash: hash(u64::from(i) * 7 % 1_024),
        start: 3 * i,
        end: 3 * i + 200 + i % 5,
    };
    Job {
        mode,
        kmer: 16,
        window: 24,
        length: 3_000,
        range_start: 1_000,
        range_end: 5_000,
        minimum_bits: 0.25_f64.to_bits(),
        query: (0..hashes).map(hash).collect(),
        items: (0..items).map(item).collect(),
        estimates: (0..estimates)
            .map(|i| pair((i as f64).to_bits(), (i as f64 + 0.5).to_bits()))
            .collect(),
    }
}

/// The job with empty fields 06 behind its own, up to 65,535 bytes: still a whole job.
pub(crate) fn filled(job: &Job) -> Vec<u8> {
    let mut fields = whole(job);
    let spare = JOB_LIMIT - fields.concat().len();
    let after_items = fields.len() - 2;
    for _ in 0..spare / 3 {
        fields.insert(after_items, field(ITEMS, &[]));
    }
    let bytes = fields.concat();
    assert_eq!(
        bytes.len(),
        JOB_LIMIT,
        "fields of three bytes fill the job up"
    );
    bytes
}

/// What must be among the records.
pub const KINDS: &[&str] = &[
    "refused 2",
    "refused 4",
    "refused 5",
    "refused 7",
    "refused 11",
    "refused 12",
    "refused 13",
    "refused 14",
    "refused 15",
    "refused 16",
    "refused 17",
    "mapped",
    "mapped, NaN with a payload",
    "none",
    "whole job, Minimizer",
    "whole job, Interval",
    "failed read after a whole job",
    "failed read, refused 12",
    "failed read, refused 14",
];

/// What an input and its lines show, for the census.
pub fn shows(input: &Input, lines: &str) -> Vec<String> {
    let read = job::read(&input.bytes);
    if input.failed {
        return vec![match read {
            Ok(_) => "failed read after a whole job".to_string(),
            Err(refusal) => format!("failed read, refused {}", refusal.number),
        }];
    }
    let mut kinds = vec![answer_of(lines)];
    if has_payload(lines) {
        kinds.push("mapped, NaN with a payload".to_string());
    }
    if let Ok(job) = read {
        kinds.push(format!("whole job, {:?}", job.mode));
    }
    kinds
}

/// The answer's first word, with the number of a refusal.
pub fn answer_of(lines: &str) -> String {
    let words: Vec<&str> = lines.split_whitespace().collect();
    match words[0] {
        "refused" => format!("refused {}", words[1]),
        other => other.to_string(),
    }
}

/// Whether the identity line has a NaN other than the one the language keeps.
fn has_payload(lines: &str) -> bool {
    let identity = lines.lines().nth(1).unwrap_or_default();
    let numbers = identity
        .split(' ')
        .filter_map(|word| u64::from_str_radix(word, 16).ok());
    let mut floats = numbers.map(f64::from_bits);
    floats.any(|float| float.is_nan() && float.to_bits() != f64::NAN.to_bits())
}
