//! `compare COMMAND`: the proved library, called through the Rust crate, against the original Rust and the model.

mod faults;
mod finder;
mod folder;
mod judged;
mod lent;
mod proved;
mod run;
mod script;
mod sweep;
#[cfg(test)]
mod wrong;

use std::path::Path;
use std::process::ExitCode;

use oracle::generate::Size;
use proved::Proved;

const USAGE: &str = "usage: compare CALL SEED COUNT [small|medium|limit]
       compare exhaust CALL
       compare jobs FOLDER
CALL is script, minimizer, interval, minimizer_finder or interval_finder";

fn main() -> ExitCode {
    let arguments: Vec<String> = std::env::args().skip(1).collect();
    let arguments: Vec<&str> = arguments.iter().map(String::as_str).collect();
    match command(&arguments) {
        Some(true) => ExitCode::SUCCESS,
        Some(false) => ExitCode::FAILURE,
        None => {
            eprintln!("{USAGE}");
            ExitCode::from(2)
        }
    }
}

/// Whether all was the same, or none where the arguments are not understood.
fn command(arguments: &[&str]) -> Option<bool> {
    match arguments {
        ["exhaust", call] => Some(run::exhaust(Proved::named(call)?)),
        ["jobs", folder] => Some(folder::run(Path::new(folder))),
        [call, seed, count] => random(call, seed, count, None),
        [call, seed, count, "small"] => random(call, seed, count, Some(Size::Small)),
        [call, seed, count, "medium"] => random(call, seed, count, Some(Size::Medium)),
        [call, seed, count, "limit"] => random(call, seed, count, Some(Size::Limit)),
        _ => None,
    }
}

fn random(call: &str, seed: &str, count: &str, size: Option<Size>) -> Option<bool> {
    let (seed, count) = (seed.parse().ok()?, count.parse().ok()?);
    Some(run::random(Proved::named(call)?, seed, count, size))
}
