//! The clock, and two sides timed by turns.

extern "C" {
    fn clock_gettime(clock: i32, time: *mut [i64; 2]) -> i32;
}

/// The processor time of this thread, in seconds.
pub fn clock() -> f64 {
    const THREAD_CPUTIME: i32 = 3;
    let mut time = [0; 2];
    // SAFETY: two i64 are a `timespec` of 64-bit Linux.
    let failed = unsafe { clock_gettime(THREAD_CPUTIME, &mut time) };
    assert_eq!(failed, 0, "this thread has a clock");
    time[0] as f64 + time[1] as f64 * 1e-9
}

/// Seconds that a run takes.
pub fn seconds(run: impl FnOnce()) -> f64 {
    let began = clock();
    run();
    clock() - began
}

pub fn median(mut xs: Vec<f64>) -> f64 {
    xs.sort_by(f64::total_cmp);
    xs[xs.len() / 2]
}

/// Median seconds of each side, and the median of the rounds' ratios.
pub struct Times {
    pub original: f64,
    pub proved: f64,
    pub ratio: f64,
}

/// Both sides so many times, taking turns at going first.
pub fn duel(rounds: usize, mut original: impl FnMut() -> f64, mut proved: impl FnMut() -> f64) -> Times {
    let mut seen = [vec![], vec![], vec![]];
    for round in 0..rounds {
        let (a, b) = if round % 2 == 0 {
            let a = original();
            (a, proved())
        } else {
            let b = proved();
            (original(), b)
        };
        for (list, x) in seen.iter_mut().zip([a, b, b / a]) {
            list.push(x);
        }
    }
    let [original, proved, ratio] = seen.map(median);
    Times { original, proved, ratio }
}

/// The argument with this number, or what stands for it.
pub fn argument<T: std::str::FromStr>(number: usize, otherwise: T) -> T {
    match std::env::args().nth(number) {
        None => otherwise,
        Some(text) => text.parse().unwrap_or_else(|_| panic!("not understood: {text}")),
    }
}
