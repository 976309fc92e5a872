//! Wrong finders. Each fault is put into both: the call's mode says which is meant.

use kelonbaro::{Candidates, FinderAnswer, Refusal};
use oracle::call::{FinderCall, Mode};

use crate::finder::{interval, minimizer, Answer, Call};
use crate::proved::Proved;

/// The proved finder of the call's mode.
fn right(
    call: &FinderCall,
    keys: &mut [u64],
    end_keys: &mut [u64],
    out: &mut Candidates<'_>,
) -> Answer {
    match call.mode {
        Mode::Minimizer => minimizer(call, keys, end_keys, out),
        Mode::Interval => interval(call, keys, end_keys, out),
    }
}

fn caught(call: Call) {
    super::caught(Proved::Finder(Mode::Minimizer, call));
    super::caught(Proved::Finder(Mode::Interval, call));
}

/// Candidates of as many hits, in memory of their own.
fn elsewhere(call: &FinderCall) -> [Vec<u32>; 3] {
    let hits = call.contigs.len();
    [vec![0; hits], vec![0; hits], vec![0; hits]]
}

#[test]
fn the_proved_calls_are_right() {
    super::right(Proved::Finder(Mode::Minimizer, right));
    super::right(Proved::Finder(Mode::Interval, right));
}

#[test]
fn refuses_all() {
    caught(|_, _, _, _| {
        Err(Refusal {
            number: 8,
            place: 0,
        })
    });
}

/// The count is right, and nothing is written.
#[test]
fn does_nothing_to_its_output() {
    caught(|call, keys, end_keys, out| {
        if out.contigs.len().min(out.starts.len()).min(out.ends.len()) < call.contigs.len() {
            return right(call, keys, end_keys, out);
        }
        let [mut contigs, mut starts, mut ends] = elsewhere(call);
        let mut other = Candidates {
            contigs: &mut contigs,
            starts: &mut starts,
            ends: &mut ends,
        };
        right(call, keys, end_keys, &mut other)
    });
}

#[test]
fn lists_nothing() {
    caught(|call, keys, end_keys, out| {
        let answer = right(call, keys, end_keys, out)?;
        Ok(FinderAnswer { count: 0, ..answer })
    });
}

#[test]
fn makes_up_a_range() {
    caught(|call, keys, end_keys, out| {
        let answer = right(call, keys, end_keys, out)?;
        for end in &mut out.ends[..answer.count as usize] {
            *end = end.saturating_add(1);
        }
        Ok(answer)
    });
}

#[test]
fn lists_in_another_order() {
    caught(|call, keys, end_keys, out| {
        let answer = right(call, keys, end_keys, out)?;
        let count = answer.count as usize;
        out.contigs[..count].reverse();
        out.starts[..count].reverse();
        out.ends[..count].reverse();
        Ok(answer)
    });
}

/// In the interval finder touching ranges join; here one is cut in two that touch.
#[test]
fn leaves_touching_ranges_apart() {
    fn wrong(
        call: &FinderCall,
        keys: &mut [u64],
        end_keys: &mut [u64],
        out: &mut Candidates<'_>,
    ) -> Answer {
        let answer = right(call, keys, end_keys, out)?;
        let last = (answer.count as usize).wrapping_sub(1);
        if answer.count == 0 || last + 1 >= call.contigs.len() || out.starts[last] == out.ends[last]
        {
            return Ok(answer);
        }
        (out.contigs[last + 1], out.ends[last + 1]) = (out.contigs[last], out.ends[last]);
        (out.ends[last], out.starts[last + 1]) = (out.starts[last], out.starts[last] + 1);
        Ok(FinderAnswer {
            count: answer.count + 1,
            ..answer
        })
    }
    super::caught(Proved::Finder(Mode::Interval, wrong));
}

/// In the minimizer finder they do not; here they do.
#[test]
fn joins_touching_ranges() {
    fn wrong(
        call: &FinderCall,
        keys: &mut [u64],
        end_keys: &mut [u64],
        out: &mut Candidates<'_>,
    ) -> Answer {
        let answer = right(call, keys, end_keys, out)?;
        let Some(last) = (answer.count as usize).checked_sub(1) else {
            return Ok(answer);
        };
        let same = last > 0 && out.contigs[last - 1] == out.contigs[last];
        if !same || out.ends[last - 1] + 1 != out.starts[last] {
            return Ok(answer);
        }
        out.ends[last - 1] = out.ends[last];
        Ok(FinderAnswer {
            count: answer.count - 1,
            ..answer
        })
    }
    super::caught(Proved::Finder(Mode::Minimizer, wrong));
}

#[test]
fn keeps_a_group_as_long_as_the_threshold() {
    caught(|call, keys, end_keys, out| {
        let threshold = call.threshold.saturating_add(1);
        let call = FinderCall {
            threshold,
            ..call.clone()
        };
        right(&call, keys, end_keys, out)
    });
}

#[test]
fn counts_the_hits_of_dropped_groups() {
    caught(|call, keys, end_keys, out| {
        let answer = right(call, keys, end_keys, out)?;
        Ok(FinderAnswer {
            seed_hits: call.contigs.len() as u32,
            ..answer
        })
    });
}

#[test]
fn leaves_the_keys() {
    caught(|call, keys, end_keys, out| {
        let answer = right(call, keys, end_keys, out)?;
        for (key, &start) in keys.iter_mut().zip(&call.starts) {
            *key = u64::from(start);
        }
        Ok(answer)
    });
}

/// Only the interval finder is lent them.
#[test]
fn leaves_the_keys_of_ends() {
    fn wrong(
        call: &FinderCall,
        keys: &mut [u64],
        end_keys: &mut [u64],
        out: &mut Candidates<'_>,
    ) -> Answer {
        let answer = right(call, keys, end_keys, out)?;
        end_keys[..call.ends.len()].fill(1);
        Ok(answer)
    }
    super::caught(Proved::Finder(Mode::Interval, wrong));
}

#[test]
fn zeroes_past_the_need() {
    caught(|call, keys, end_keys, out| {
        let answer = right(call, keys, end_keys, out)?;
        keys.fill(0);
        Ok(answer)
    });
}

#[test]
fn writes_past_the_answer() {
    caught(|call, keys, end_keys, out| {
        let answer = right(call, keys, end_keys, out)?;
        out.starts[answer.count as usize..].fill(0);
        Ok(answer)
    });
}

#[test]
fn clears_where_it_refuses() {
    caught(|call, keys, end_keys, out| {
        let answer = right(call, keys, end_keys, out);
        if answer.is_err() {
            keys.fill(0);
        }
        answer
    });
}

#[test]
fn takes_a_minimum_of_no_hits() {
    caught(|call, keys, end_keys, out| {
        let minimum = call.minimum.max(1);
        let call = FinderCall {
            minimum,
            ..call.clone()
        };
        right(&call, keys, end_keys, out)
    });
}

#[test]
fn writes_past_its_slice() {
    caught(|call, keys, end_keys, out| {
        let answer = right(call, keys, end_keys, out);
        // SAFETY: the slices that are judged have guard entries behind them.
        unsafe { *out.ends.as_mut_ptr().add(out.ends.len()) ^= 1 };
        answer
    });
}
