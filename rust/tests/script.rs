//! The wrapper: every answer and refusal comes through, and the slices are left as the call says.

use kelonbaro::{script, Final, Refusal, Script, ScriptNeeds, ScriptWork};

const COORDS: [u64; 5] = [10, 20, 30, 40, 50];

/// Runs a call on poisoned slices of exactly the needed lengths and one more entry each.
fn run(call: Script<'_>) -> (Result<Final, Refusal>, [Vec<u64>; 5]) {
    let needs = ScriptNeeds::of(call.coords.len(), call.indexes.len());
    let mut counts = vec![7; needs.counts + 1];
    let (mut words, mut summary) = (vec![7; needs.words + 1], vec![7; needs.summary + 1]);
    let (mut pivots, mut shared) = (vec![7; needs.outputs + 1], vec![7; needs.outputs + 1]);
    let mut work = ScriptWork {
        counts: &mut counts,
        words: &mut words,
        summary: &mut summary,
    };
    let answer = script(call, &mut work, &mut pivots, &mut shared);
    let wide = |list: Vec<u32>| list.into_iter().map(u64::from).collect();
    (
        answer,
        [wide(counts), words, summary, wide(pivots), wide(shared)],
    )
}

#[test]
fn example_a() {
    let (answer, left) = run(Script {
        query: &[20, 40],
        coords: &COORDS,
        indexes: &[1, 0, 3, 0, 0, 0, 2, 4, 1, 2],
        kinds: &[1, 1, 1, 1, 0, 0, 0, 1, 0, 1],
    });
    assert_eq!(
        answer,
        Ok(Final {
            pivot: 2,
            shared: 0
        })
    );
    assert_eq!(left[0], [0, 0, 0, 0, 0, 7]);
    assert_eq!(left[1], [0, 7]);
    assert_eq!(left[2], [0, 7]);
    assert_eq!(left[3], [3, 1, 1, 1, 1, 3, 3, 3, 3, 2, 7]);
    assert_eq!(left[4], [1, 1, 1, 1, 1, 2, 2, 2, 1, 0, 7]);
}

#[test]
fn no_steps() {
    let (answer, _) = run(Script {
        query: &[20, 40],
        coords: &COORDS,
        indexes: &[],
        kinds: &[],
    });
    assert_eq!(
        answer,
        Ok(Final {
            pivot: 3,
            shared: 0
        })
    );
}

#[test]
fn refusals_leave_all_as_it_was() {
    let fine = Script {
        query: &[20, 40],
        coords: &COORDS,
        indexes: &[1, 0],
        kinds: &[1, 1],
    };
    let refused = [
        (
            Script {
                coords: &[],
                ..fine
            },
            1,
            0,
        ),
        (
            Script {
                kinds: &[1],
                ..fine
            },
            3,
            0,
        ),
        (Script { query: &[], ..fine }, 4, 0),
        (
            Script {
                query: &[40, 20],
                ..fine
            },
            4,
            1,
        ),
        (
            Script {
                coords: &[10, 20, 20],
                ..fine
            },
            5,
            2,
        ),
        (
            Script {
                query: &[20, 41],
                ..fine
            },
            6,
            1,
        ),
        (
            Script {
                indexes: &[1, 5],
                ..fine
            },
            6,
            1,
        ),
        (
            Script {
                kinds: &[2, 1],
                ..fine
            },
            6,
            0,
        ),
    ];
    for (call, number, place) in refused {
        let (answer, left) = run(call);
        assert_eq!(answer, Err(Refusal { number, place }));
        assert!(left.iter().flatten().all(|&x| x == 7));
    }
}

#[test]
fn short_slices_are_refused() {
    let call = Script {
        query: &[20],
        coords: &COORDS,
        indexes: &[0],
        kinds: &[1],
    };
    let mut work = ScriptWork {
        counts: &mut [0; 4],
        words: &mut [0; 1],
        summary: &mut [0; 1],
    };
    let answer = script(call, &mut work, &mut [0; 1], &mut [0; 1]);
    assert_eq!(
        answer,
        Err(Refusal {
            number: 8,
            place: 0
        })
    );
}
