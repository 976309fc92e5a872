//! `oracle job`: what the mapping program prints for the job on standard input, with the original doing the sweep
//! behind the model's checks. `oracle jobs`: drawn jobs, whole and damaged, through the original and the model.

use std::collections::BTreeMap;
use std::io::{self, Read};

use crate::call::{SweepAnswer, SweepCall};
use crate::model::job::JOB_LIMIT;
use crate::model::lines::{printed, printed_after_failure};
use crate::random::Random;
use crate::vectors::job_cases::{self, Input};
use crate::{model, original};

/// Reads one byte more than a job may have, so that a longer one is seen to be too long.
pub fn job() -> bool {
    let mut bytes = Vec::new();
    let most = JOB_LIMIT as u64 + 1;
    let failed = io::stdin().take(most).read_to_end(&mut bytes).is_err();
    print!("{}", lines_of(&Input { bytes, failed }));
    true
}

/// What is printed for an input. Panics where the original and the model differ.
pub fn lines_of(input: &Input) -> String {
    if input.failed {
        return printed_after_failure(&input.bytes);
    }
    let by_original = printed(&input.bytes, original_sweep);
    let by_model = printed(&input.bytes, model::sweep);
    assert_eq!(by_original, by_model, "job {:02x?}", input.bytes);
    by_original
}

/// The original, which refuses nothing, behind the model's checks.
pub fn original_sweep(call: &SweepCall) -> SweepAnswer {
    match model::refusals::sweep(call) {
        Err(refusal) => SweepAnswer::Refused(refusal),
        Ok(()) => original::sweep(call).expect("the original takes what the model accepts"),
    }
}

/// So many drawn inputs; prints how often each answer came.
pub fn compare(seed: u64, count: u64) -> bool {
    let mut random = Random::new(seed);
    let mut tally: BTreeMap<String, u64> = BTreeMap::new();
    for _ in 0..count {
        let input = job_cases::any(&mut random);
        let lines = lines_of(&input);
        *tally.entry(answer_word(&input, &lines)).or_default() += 1;
    }
    println!("{count} jobs from seed {seed}: the original and the model print the same");
    for (answer, count) in tally {
        println!("  {answer}: {count}");
    }
    true
}

fn answer_word(input: &Input, lines: &str) -> String {
    let answer = job_cases::answer_of(lines);
    match input.failed {
        true => format!("failed read, {answer}"),
        false => answer,
    }
}
