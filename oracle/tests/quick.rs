//! A short differential run, and that it sees what it should.

use oracle::case::refused;
use oracle::diff::judged;
use oracle::generate::Size;

const SWEEP_REFUSALS: [u8; 7] = [1, 2, 3, 4, 5, 7, 8];
const FINDER_REFUSALS: [u8; 4] = [1, 2, 3, 8];

#[test]
fn small_cases_agree_and_show_every_kind_of_answer() {
    let (tally, all_same) = judged(1, 60_000, None);
    assert!(all_same);
    let calls: [(&'static str, &[u8], &[&'static str]); 5] = [
        ("script", &[1, 3, 4, 5, 6, 8], &["done", "done, no step"]),
        (
            "minimizer sweep",
            &SWEEP_REFUSALS,
            &[
                "placed",
                "none before coordinates",
                "none, no best score",
                "none by identity",
            ],
        ),
        (
            "interval sweep",
            &SWEEP_REFUSALS,
            &[
                "placed",
                "placed, shared 0",
                "none before coordinates",
                "none by identity",
            ],
        ),
        (
            "minimizer finder",
            &FINDER_REFUSALS,
            &["listed 0", "listed 1", "listed more"],
        ),
        (
            "interval finder",
            &FINDER_REFUSALS,
            &["listed 0", "listed 1", "listed more"],
        ),
    ];
    for (call, refusals, answers) in calls {
        let kinds = refusals.iter().map(|&number| refused(number));
        for kind in kinds.chain(answers.iter().copied()) {
            assert!(tally.count(call, kind) > 0, "{call}: {kind} never seen");
        }
    }
}

#[test]
fn medium_cases_agree() {
    let (_, all_same) = judged(2, 200, Some(Size::Medium));
    assert!(all_same);
}

#[test]
fn what_the_original_does_with_refused_inputs_is_as_noted() {
    assert!(oracle::differences::run());
}
