//! `oracle COMMAND`: see README.md.

use std::path::Path;
use std::process::ExitCode;
use std::time::Duration;

use oracle::generate::Size;
use oracle::program::{self, Program, SECOND};

const USAGE: &str = "usage: oracle examples
       oracle diff SEED COUNT [small|medium|limit]
       oracle exhaust
       oracle antt SEED COUNT
       oracle differences
       oracle job < FILE
       oracle jobs SEED COUNT
       oracle program [--seconds N] SEED COUNT PROGRAM [WORD..]
       oracle program [--seconds N] bytes PROGRAM [WORD..]
       oracle vectors FOLDER
       oracle vectors --check FOLDER";

fn main() -> ExitCode {
    let arguments: Vec<String> = std::env::args().skip(1).collect();
    let arguments: Vec<&str> = arguments.iter().map(String::as_str).collect();
    match run(&arguments) {
        Some(true) => ExitCode::SUCCESS,
        Some(false) => ExitCode::FAILURE,
        None => {
            eprintln!("{USAGE}");
            ExitCode::from(2)
        }
    }
}

/// Whether all was well, or none where the arguments are not understood.
fn run(arguments: &[&str]) -> Option<bool> {
    match arguments {
        ["examples"] => Some(oracle::examples::run()),
        ["diff", seed, count] => diff(seed, count, None),
        ["diff", seed, count, size] => diff(seed, count, Some(size)),
        ["exhaust"] => Some(oracle::exhaust::run()),
        ["antt", seed, count] => Some(oracle::antt::run(seed.parse().ok()?, count.parse().ok()?)),
        ["differences"] => Some(oracle::differences::run()),
        ["job"] => Some(oracle::job_command::job()),
        ["jobs", seed, count] => jobs(seed, count),
        ["program", words @ ..] => program(words, SECOND),
        ["vectors", "--check", folder] => Some(oracle::vectors::check(Path::new(folder))),
        ["vectors", folder] => Some(oracle::vectors::write(Path::new(folder))),
        _ => None,
    }
}

fn diff(seed: &str, count: &str, size: Option<&str>) -> Option<bool> {
    let size = match size {
        None => None,
        Some("small") => Some(Size::Small),
        Some("medium") => Some(Size::Medium),
        Some("limit") => Some(Size::Limit),
        Some(_) => return None,
    };
    Some(oracle::diff::run(
        seed.parse().ok()?,
        count.parse().ok()?,
        size,
    ))
}

fn jobs(seed: &str, count: &str) -> Option<bool> {
    let (seed, count) = (seed.parse().ok()?, count.parse().ok()?);
    Some(oracle::job_command::compare(seed, count))
}

fn program(words: &[&str], limit: Duration) -> Option<bool> {
    let other = match words {
        ["--seconds", seconds, words @ ..] => {
            return program(words, Duration::from_secs(seconds.parse().ok()?))
        }
        ["bytes", words @ ..] if !words.is_empty() => program::bytes(&Program { words, limit }),
        [seed, count, words @ ..] if !words.is_empty() => {
            let (seed, count) = (seed.parse().ok()?, count.parse().ok()?);
            program::drawn(seed, count, &Program { words, limit })
        }
        _ => return None,
    };
    Some(other.is_none())
}
