//! The runs of a program see what they are for: `oracle job` as the program passes, and wrong programs made from it are caught where they are wrong.

use std::time::Duration;

use oracle::program::{self, Program, SECOND};

const ORACLE: &str = env!("CARGO_BIN_EXE_oracle");
const COUNT: u64 = 600;

/// The model's reader, which `oracle job` is, takes its time over ten thousand fields.
const PATIENCE: Duration = Duration::from_secs(20);

/// A shell's words; `$0` is the oracle, and the input is a job.
fn shell(words: &str) -> [&str; 4] {
    ["sh", "-c", words, ORACLE]
}

fn caught_at(words: &[&str], limit: Duration, count: u64) -> Option<&'static str> {
    program::drawn(1, count, &Program { words, limit })
}

fn caught(words: &str, kind: &str) {
    let at = caught_at(&shell(words), PATIENCE, COUNT);
    assert_eq!(at, Some(kind), "{words}");
}

#[test]
fn the_oracle_itself_passes() {
    assert_eq!(caught_at(&[ORACLE, "job"], PATIENCE, COUNT), None);
}

#[test]
fn other_bytes_are_caught() {
    caught("echo refused 12 0", "in parts, with pauses");
    caught("\"$0\" job; echo", "empty input");
    caught("\"$0\" job; echo warning >&2", "empty input");
    caught("\"$0\" job | tr -d '\\n'", "empty input");
    caught("\"$0\" job >/dev/null", "empty input");
    caught("\"$0\" job | sed 's/^refused 5 .*/none/'", "damaged");
}

#[test]
fn a_status_and_a_signal_are_caught_behind_the_right_answer() {
    caught("\"$0\" job; exit 3", "empty input");
    caught("\"$0\" job; kill -SEGV $$", "empty input");
}

#[test]
fn a_run_without_end_is_caught() {
    let endless = [
        "\"$0\" job; exec sleep 4",
        "exec sleep 4",
        "exec yes",
        "\"$0\" job; exec >/dev/null 2>&1; exec sleep 4",
    ];
    for words in endless {
        assert_eq!(
            caught_at(&shell(words), SECOND, COUNT),
            Some("empty input"),
            "{words}"
        );
    }
}

#[test]
fn a_failed_read_taken_for_the_end_is_caught() {
    caught("cat 2>/dev/null | \"$0\" job", "failed read");
}

#[test]
fn bytes_left_unread_are_caught() {
    let one_byte_fewer = shell("head -c 65535 | \"$0\" job");
    let at = caught_at(&one_byte_fewer, PATIENCE, 0);
    assert_eq!(at, Some("at the limits"));
    caught(
        "dd bs=65536 count=1 2>/dev/null | \"$0\" job",
        "in parts, with pauses",
    );
}

/// The first is right for all cuts of the first job, which has 167 bytes, and the second for all whole jobs.
#[test]
fn cuts_and_changed_bytes_are_run() {
    let caught_at = |words: &str| {
        let (words, limit) = (&shell(words)[..], PATIENCE);
        program::bytes(&Program { words, limit })
    };
    assert_eq!(
        caught_at("head -c 166 | \"$0\" job"),
        Some("a small job, one byte other")
    );
    assert_eq!(
        caught_at("\"$0\" job | sed 's/^refused 12 31$/refused 12 34/'"),
        Some("a small job cut")
    );
}
