//! The printed lines, from document 01, and the program as a function of its input bytes.

use super::job::{read, FileRefusal, Job};
use crate::call::{Place, Stats, SweepAnswer, SweepCall};

/// What the program prints for a job, with `sweep` as the library.
pub fn printed(bytes: &[u8], sweep: impl Fn(&SweepCall) -> SweepAnswer) -> String {
    match read(bytes) {
        Ok(job) => answer_lines(&job, sweep(&job.sweep())),
        Err(refusal) => file_line(refusal),
    }
}

/// What it prints where reading failed after these bytes: their refusal, or that a whole job was not seen to end.
pub fn printed_after_failure(bytes: &[u8]) -> String {
    match read(bytes) {
        Ok(_) => file_line(FileRefusal {
            number: 12,
            offset: bytes.len() as u32,
        }),
        Err(refusal) => file_line(refusal),
    }
}

fn answer_lines(job: &Job, answer: SweepAnswer) -> String {
    match answer {
        SweepAnswer::Refused(refusal) => refused_line(refusal.number, refusal.place),
        SweepAnswer::Nothing(stats) => format!("none\n{}", counts_line(stats)),
        SweepAnswer::Placed(place, stats) => {
            mapped_line(place) + &identity_line(job, place) + &counts_line(stats)
        }
    }
}

fn file_line(refusal: FileRefusal) -> String {
    refused_line(refusal.number, refusal.offset)
}

fn refused_line(number: u8, place: u32) -> String {
    format!("refused {number} {place}\n")
}

fn mapped_line(place: Place) -> String {
    format!(
        "mapped {} {} {} {}\n",
        place.start, place.end, place.shared, place.size
    )
}

/// The bits as they stood in the job, not as they come back through a float.
fn identity_line(job: &Job, place: Place) -> String {
    let pair = job.estimates[place.shared as usize];
    format!(
        "identity {:016x} {:016x}\n",
        pair.identity_bits, pair.upper_bits
    )
}

fn counts_line(stats: Stats) -> String {
    format!(
        "counts {} {} {}\n",
        stats.windows, stats.coords, stats.items
    )
}
