//! The minimizer sweep against the original's `do_l2_mapping_bitset_exact`: `bench/run minimizer [ROUNDS] [FOLDER]`, FOLDER holding real jobs.
//!
//! Each row has a pool of different inputs. A round runs the whole pool on one side and then on the other, the sides taking turns at going
//! first; a row shows the median time of a call on each side, and the median of the rounds' ratios. The lent memory is one for all calls.
//! Before any time is taken the two sides' answers are compared. Time is the processor time of this thread.

#[path = "../sweeps.rs"]
mod sweeps;
#[path = "../timing.rs"]
mod timing;

use oracle::call::Mode;
use std::path::PathBuf;

const SIZES: [(usize, usize); 4] = [(240, 500), (240, 2_000), (512, 2_048), (4_096, 61_440)];

fn main() {
    let folder: PathBuf = timing::argument(2, "examples".into());
    sweeps::table(Mode::Minimizer, timing::argument(1, 31), &SIZES, &folder);
}
