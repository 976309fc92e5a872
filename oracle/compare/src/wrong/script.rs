//! Wrong scripts.

use kelonbaro::{script, Final, Refusal, Script, ScriptWork};

use crate::proved::Proved;
use crate::script::Call;

type Answer = Result<Final, Refusal>;

fn caught(call: Call) {
    super::caught(Proved::Script(call));
}

#[test]
fn the_proved_call_is_right() {
    super::right(Proved::Script(script));
}

#[test]
fn refuses_all() {
    caught(|_, _, _, _| {
        Err(Refusal {
            number: 8,
            place: 0,
        })
    });
}

#[test]
fn does_nothing() {
    caught(|_, _, _, _| {
        Ok(Final {
            pivot: 0,
            shared: 0,
        })
    });
}

#[test]
fn answers_after_the_first_step_alone() {
    fn wrong(
        call: Script<'_>,
        work: &mut ScriptWork<'_>,
        pivots: &mut [u32],
        shared: &mut [u32],
    ) -> Answer {
        let last = script(call, work, pivots, shared)?;
        let steps = call.indexes.len();
        for j in 1..steps {
            (pivots[j], shared[j]) = (pivots[0], shared[0]);
        }
        Ok(last)
    }
    caught(wrong);
}

#[test]
fn stores_one_late() {
    fn wrong(
        call: Script<'_>,
        work: &mut ScriptWork<'_>,
        pivots: &mut [u32],
        shared: &mut [u32],
    ) -> Answer {
        let last = script(call, work, pivots, shared)?;
        pivots[..call.indexes.len()].rotate_right(usize::from(call.indexes.len() > 1));
        Ok(last)
    }
    caught(wrong);
}

#[test]
fn leaves_work_unzeroed() {
    fn wrong(
        call: Script<'_>,
        work: &mut ScriptWork<'_>,
        pivots: &mut [u32],
        shared: &mut [u32],
    ) -> Answer {
        let last = script(call, work, pivots, shared)?;
        work.counts[call.coords.len() - 1] = 1;
        Ok(last)
    }
    caught(wrong);
}

#[test]
fn zeroes_past_the_need() {
    fn wrong(
        call: Script<'_>,
        work: &mut ScriptWork<'_>,
        pivots: &mut [u32],
        shared: &mut [u32],
    ) -> Answer {
        let last = script(call, work, pivots, shared)?;
        work.words.fill(0);
        Ok(last)
    }
    caught(wrong);
}

#[test]
fn clears_where_it_refuses() {
    fn wrong(
        call: Script<'_>,
        work: &mut ScriptWork<'_>,
        pivots: &mut [u32],
        shared: &mut [u32],
    ) -> Answer {
        let answer = script(call, work, pivots, shared);
        if answer.is_err() {
            work.summary.fill(0);
        }
        answer
    }
    caught(wrong);
}

#[test]
fn gives_another_place() {
    fn wrong(
        call: Script<'_>,
        work: &mut ScriptWork<'_>,
        pivots: &mut [u32],
        shared: &mut [u32],
    ) -> Answer {
        let earlier = |refusal: Refusal| Refusal {
            place: refusal.place.saturating_sub(1),
            ..refusal
        };
        script(call, work, pivots, shared).map_err(earlier)
    }
    caught(wrong);
}

#[test]
fn writes_past_its_slice() {
    fn wrong(
        call: Script<'_>,
        work: &mut ScriptWork<'_>,
        pivots: &mut [u32],
        shared: &mut [u32],
    ) -> Answer {
        let answer = script(call, work, pivots, shared);
        // SAFETY: the slices that are judged have guard entries behind them.
        unsafe { *shared.as_mut_ptr().add(shared.len()) ^= 1 };
        answer
    }
    caught(wrong);
}
