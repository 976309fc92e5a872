//! `oracle program`: the mapping program, run once for each job and held to what `oracle job` prints, byte for byte.

mod cases;
mod process;

use std::collections::BTreeMap;
use std::time::{Duration, Instant};

use crate::job_command::lines_of;
use crate::random::Random;
use crate::vectors::job_cases::answer_of;
use cases::{Kind, Run};

/// A program with its first words, and how long a run may take.
pub struct Program<'a> {
    pub words: &'a [&'a str],
    pub limit: Duration,
}

/// The limit that the mapping program is held to.
pub const SECOND: Duration = Duration::from_secs(1);

#[derive(Default)]
struct Tally {
    kinds: BTreeMap<Kind, (u64, Duration)>,
    answers: BTreeMap<String, u64>,
}

impl Tally {
    /// Counts a run that was as it must be; prints one that was not, and answers whether it was.
    fn judge(&mut self, program: &Program, run: &Run) -> bool {
        let expected = lines_of(&run.input);
        let ran = process::run(program, run);
        let in_time = ran.took <= program.limit;
        if ran.ended == Ok(()) && in_time && ran.said == expected.as_bytes() {
            let (count, slowest) = self.kinds.entry(run.kind).or_default();
            *count += 1;
            *slowest = ran.took.max(*slowest);
            *self.answers.entry(answer_of(&expected)).or_default() += 1;
            return true;
        }
        report(run, &expected, &ran);
        false
    }

    fn print(&self, began: Instant) {
        for (kind, (count, slowest)) in &self.kinds {
            println!("{:28} {count:>8}  slowest {slowest:.1?}", kind.name());
        }
        for (answer, count) in &self.answers {
            println!("  {answer}: {count}");
        }
        let jobs: u64 = self.kinds.values().map(|kind| kind.0).sum();
        let slowest = self.kinds.values().map(|kind| kind.1).max();
        println!(
            "{jobs} jobs as they must be, slowest run {:.1?}, {:.1} s in all",
            slowest.unwrap_or_default(),
            began.elapsed().as_secs_f64()
        );
    }
}

fn report(run: &Run, expected: &str, ran: &process::Ran) {
    let Run { kind, input, .. } = run;
    println!("DIFFERENCE, {}, {} bytes:", kind.name(), input.bytes.len());
    for byte in &input.bytes {
        print!("{byte:02x}");
    }
    println!(
        "\nfailed read: {}\nexpected\n{expected}printed",
        input.failed
    );
    println!("{}", String::from_utf8_lossy(&ran.said));
    println!("{:?} after {:.1?}", ran.ended, ran.took);
}

/// Stops at the first difference and answers the name of its kind.
fn first_other(program: &Program, mut runs: impl Iterator<Item = Run>) -> Option<&'static str> {
    let began = Instant::now();
    let mut tally = Tally::default();
    let other = runs.find(|run| !tally.judge(program, run));
    tally.print(began);
    other.map(|run| run.kind.name())
}

/// The empty input and B2's job in parts, so many drawn inputs, and those at the limits; answers the kind of the first difference.
pub fn drawn(seed: u64, count: u64, program: &Program) -> Option<&'static str> {
    let mut random = Random::new(seed);
    let drawn = (0..count).map(move |_| cases::any(&mut random));
    let front = cases::front().into_iter();
    first_other(program, front.chain(drawn).chain(cases::at_the_limits()))
}

/// Every cut and every other value of every byte of a dozen small jobs; answers the kind of the first difference.
pub fn bytes(program: &Program) -> Option<&'static str> {
    let jobs = cases::dozen();
    first_other(program, jobs.iter().flat_map(|job| cases::damage(job)))
}
