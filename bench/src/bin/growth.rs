//! How the time of both sweeps grows with the items, 500 to 61,440, at a query of 240 (250): `bench/run growth [ROUNDS] [FOLDER]` prints the
//! times and the fits, and draws `growth_minimizer.svg` and `growth_interval.svg` in FOLDER. Timed as minimizer.rs says.

#[path = "../plot.rs"]
mod plot;
#[allow(dead_code)]
#[path = "../sweeps.rs"]
mod sweeps;
#[path = "../timing.rs"]
mod timing;

use oracle::call::Mode;
use plot::{svg, Fit, Series};
use std::path::{Path, PathBuf};

const ITEMS: [usize; 8] = [500, 1_000, 2_000, 4_000, 8_000, 16_000, 32_000, 61_440];

/// As TurboANI's hashes are.
const BITS: u32 = 32;

fn grow(name: &str, mode: Mode, query: usize, rounds: usize, folder: &Path) -> std::io::Result<()> {
    println!("| {name} items | original, µs | proved, µs | ratio |");
    println!("|---|---|---|---|");
    let (mut original, mut proved) = (vec![], vec![]);
    for items in ITEMS {
        let times = sweeps::time(rounds, &sweeps::pool(mode, query, items, BITS));
        println!("| {items} | {:.1} | {:.1} | {:.2} |", times.original * 1e6, times.proved * 1e6, times.ratio);
        original.push((items as f64, times.original));
        proved.push((items as f64, times.proved));
    }
    let series = [("original", "#888", &original), ("proved", "#06c", &proved)].map(|(name, colour, points)| Series {
        name: name.into(),
        colour,
        points,
        fit: Fit::of(points),
    });
    println!();
    for one in &series {
        println!("{} {name} sweep: {:.2} ns × items^{:.3}", one.name, one.fit.factor * 1e9, one.fit.power);
    }
    println!();
    let title = format!("Time of the {name} sweep, {query} query hashes");
    std::fs::write(folder.join(format!("growth_{name}.svg")), svg(&title, "items", &series))
}

fn main() -> std::io::Result<()> {
    let rounds = timing::argument(1, 21);
    let folder: PathBuf = timing::argument(2, "docs".into());
    grow("minimizer", Mode::Minimizer, 240, rounds, &folder)?;
    grow("interval", Mode::Interval, 250, rounds, &folder)
}
