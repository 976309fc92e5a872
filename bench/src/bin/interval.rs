//! The interval sweep against the original's `do_l2_mapping_minmer_intervals`: `bench/run interval [ROUNDS] [FOLDER]`, FOLDER holding real
//! jobs. Timed as the minimizer sweep is (see minimizer.rs).

#[path = "../sweeps.rs"]
mod sweeps;
#[path = "../timing.rs"]
mod timing;

use oracle::call::Mode;
use std::path::PathBuf;

const SIZES: [(usize, usize); 3] = [(250, 750), (512, 2_048), (4_096, 57_000)];

fn main() {
    let folder: PathBuf = timing::argument(2, "examples".into());
    sweeps::table(Mode::Interval, timing::argument(1, 31), &SIZES, &folder);
}
