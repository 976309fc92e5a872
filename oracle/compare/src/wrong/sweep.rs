//! Wrong sweeps. Each fault is put into both: the call's mode says which is meant.

use kelonbaro::{Estimate, Place, Refusal, Stats, SweepAnswer, SweepWork};
use oracle::call::{Mode, SweepCall};
use oracle::model::needs;

use crate::proved::Proved;
use crate::sweep::{interval, minimizer, Answer, Call, Slices};

/// The proved sweep of the call's mode.
fn right(call: &SweepCall, work: &mut SweepWork<'_>, events: &mut [u64]) -> Answer {
    match call.mode {
        Mode::Minimizer => minimizer(call, work, events),
        Mode::Interval => interval(call, work, events),
    }
}

fn caught(call: Call) {
    super::caught(Proved::Sweep(Mode::Minimizer, call));
    super::caught(Proved::Sweep(Mode::Interval, call));
}

/// The right answer with something else in the place of its place.
fn with_place(answer: Answer, change: impl FnOnce(Place) -> Option<Place>) -> Answer {
    answer.map(|answer| SweepAnswer {
        place: answer.place.and_then(change),
        ..answer
    })
}

/// The right answer with other statistics.
fn with_stats(answer: Answer, change: impl FnOnce(Stats) -> Stats) -> Answer {
    answer.map(|answer| SweepAnswer {
        stats: change(answer.stats),
        ..answer
    })
}

#[test]
fn the_proved_calls_are_right() {
    super::right(Proved::Sweep(Mode::Minimizer, right));
    super::right(Proved::Sweep(Mode::Interval, right));
}

#[test]
fn refuses_all() {
    caught(|_, _, _| {
        Err(Refusal {
            number: 8,
            place: 0,
        })
    });
}

#[test]
fn says_none_always() {
    caught(|call, work, events| with_place(right(call, work, events), |_| None));
}

#[test]
fn says_one_fixed_place() {
    caught(|call, work, events| {
        with_place(right(call, work, events), |place| {
            Some(Place {
                start: 0,
                end: u64::from(call.length).saturating_sub(1),
                ..place
            })
        })
    });
}

/// The answer is right, and the lent slices are as they were: the work was done elsewhere.
#[test]
fn does_nothing_to_its_work() {
    caught(|call, _, _| Slices::poisoned(call).run(right, call));
}

#[test]
fn leaves_the_hashes() {
    caught(|call, work, events| {
        let answer = right(call, work, events)?;
        work.hashes[..call.query.len()].copy_from_slice(&call.query);
        Ok(answer)
    });
}

#[test]
fn leaves_a_coordinate() {
    caught(|call, work, events| {
        let answer = right(call, work, events)?;
        let m = call.query.len() + call.hashes.len();
        if m > 0 {
            work.coords[m - 1] = 1;
        }
        Ok(answer)
    });
}

#[test]
fn leaves_a_summary_bit() {
    caught(|call, work, events| {
        let answer = right(call, work, events)?;
        let need = needs::sweep(call.mode, call.query.len(), call.hashes.len());
        work.summary[..need.summary]
            .iter_mut()
            .for_each(|word| *word = 1);
        Ok(answer)
    });
}

/// Only the interval sweep is lent them.
#[test]
fn leaves_the_event_keys() {
    fn wrong(call: &SweepCall, work: &mut SweepWork<'_>, events: &mut [u64]) -> Answer {
        let answer = right(call, work, events)?;
        events[..2 * call.hashes.len()].fill(1);
        Ok(answer)
    }
    super::caught(Proved::Sweep(Mode::Interval, wrong));
}

#[test]
fn zeroes_past_the_need() {
    caught(|call, work, events| {
        let answer = right(call, work, events)?;
        work.counts.fill(0);
        Ok(answer)
    });
}

#[test]
fn clears_where_it_refuses() {
    caught(|call, work, events| {
        let answer = right(call, work, events);
        if answer.is_err() {
            work.words.fill(0);
        }
        answer
    });
}

#[test]
fn gives_another_place_of_refusal() {
    caught(|call, work, events| {
        right(call, work, events).map_err(|refusal| Refusal {
            place: refusal.place.saturating_sub(1),
            ..refusal
        })
    });
}

#[test]
fn writes_past_its_slice() {
    caught(|call, work, events| {
        let answer = right(call, work, events);
        // SAFETY: the slices that are judged have guard entries behind them.
        unsafe { *work.words.as_mut_ptr().add(work.words.len()) ^= 1 };
        answer
    });
}

#[test]
fn writes_before_its_slice() {
    caught(|call, work, events| {
        let answer = right(call, work, events);
        // SAFETY: the slices that are judged have guard entries before them.
        unsafe { *work.coords.as_mut_ptr().sub(1) ^= 1 };
        answer
    });
}

#[test]
fn makes_up_windows() {
    caught(|call, work, events| {
        with_stats(right(call, work, events), |stats| Stats {
            windows: u64::from(call.range_end.saturating_sub(call.range_start)),
            ..stats
        })
    });
}

#[test]
fn makes_up_coordinates() {
    caught(|call, work, events| {
        with_stats(right(call, work, events), |stats| Stats {
            coords: (call.query.len() + call.hashes.len()) as u32,
            ..stats
        })
    });
}

#[test]
fn counts_all_items() {
    caught(|call, work, events| {
        with_stats(right(call, work, events), |stats| Stats {
            items: call.hashes.len() as u32,
            ..stats
        })
    });
}

/// One base too far; the end goes with it.
#[test]
fn rounds_the_middle_up() {
    caught(|call, work, events| {
        with_place(right(call, work, events), |place| {
            Some(Place {
                start: place.start + 1,
                end: place.end + 1,
                ..place
            })
        })
    });
}

#[test]
fn ends_past_the_last_base() {
    caught(|call, work, events| {
        with_place(right(call, work, events), |place| {
            Some(Place {
                end: place.end + 1,
                ..place
            })
        })
    });
}

#[test]
fn swaps_the_estimate() {
    caught(|call, work, events| {
        with_place(right(call, work, events), |place| {
            let Estimate { identity, upper } = place.estimate;
            Some(Place {
                estimate: Estimate {
                    identity: upper,
                    upper: identity,
                },
                ..place
            })
        })
    });
}

#[test]
fn tests_the_identity_itself() {
    caught(|call, work, events| {
        with_place(right(call, work, events), |place| {
            let rejected = place.estimate.identity < call.minimum;
            (!rejected).then_some(place)
        })
    });
}

#[test]
fn rejects_on_nan() {
    caught(|call, work, events| {
        with_place(right(call, work, events), |place| {
            (place.estimate.upper >= call.minimum).then_some(place)
        })
    });
}

/// The minimizer sweep gives no place for 0, so that the fault is the interval sweep's alone.
#[test]
fn zero_never_wins() {
    fn wrong(call: &SweepCall, work: &mut SweepWork<'_>, events: &mut [u64]) -> Answer {
        with_place(right(call, work, events), |place| {
            (place.shared > 0).then_some(place)
        })
    }
    super::caught(Proved::Sweep(Mode::Interval, wrong));
}
