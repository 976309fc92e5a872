//! Jobs: the example files print what stands beside them, damage is refused where the paper says, and the stored
//! vectors are what is made now.

use std::path::{Path, PathBuf};

use oracle::job_command::lines_of;
use oracle::model::job::{read, FileRefusal};
use oracle::model::lines::printed_after_failure;
use oracle::vectors;
use oracle::vectors::job_cases::{self, Input};

fn repository() -> PathBuf {
    Path::new(env!("CARGO_MANIFEST_DIR")).join("..")
}

fn example(name: &str) -> Vec<u8> {
    std::fs::read(repository().join("examples").join(name)).unwrap()
}

fn ended(bytes: Vec<u8>) -> Input {
    Input {
        bytes,
        failed: false,
    }
}

#[test]
fn every_example_prints_what_stands_beside_it() {
    let mut seen = 0;
    for entry in std::fs::read_dir(repository().join("examples")).unwrap() {
        let path = entry.unwrap().path();
        if path.extension().is_some_and(|extension| extension == "job") {
            let expected = std::fs::read_to_string(path.with_extension("expected")).unwrap();
            let lines = lines_of(&ended(std::fs::read(&path).unwrap()));
            assert_eq!(lines, expected, "{}", path.display());
            seen += 1;
        }
    }
    assert!(seen >= 40, "{seen} jobs");
}

#[test]
fn b2_is_the_example_file() {
    assert_eq!(job_cases::b2(), example("b2.job"));
}

/// Where the fields of B2's job begin.
const B2_FIELDS: [usize; 7] = [0, 4, 8, 31, 50, 113, 164];

fn cut_at(length: usize) -> FileRefusal {
    let field = B2_FIELDS.iter().rev().find(|&&field| field <= length);
    FileRefusal {
        number: 12,
        offset: *field.unwrap() as u32,
    }
}

#[test]
fn every_cut_of_b2_is_refused_at_the_field_it_cuts() {
    let b2 = example("b2.job");
    for length in 0..b2.len() {
        assert_eq!(read(&b2[..length]).unwrap_err(), cut_at(length), "{length}");
    }
}

#[test]
fn a_failed_read_is_never_none() {
    let b2 = example("b2.job");
    assert_eq!(printed_after_failure(&b2), "refused 12 167\n");
    assert_eq!(printed_after_failure(&b2[..60]), "refused 12 50\n");
    assert_eq!(printed_after_failure(&[]), "refused 12 0\n");
    assert_eq!(printed_after_failure(&example("f.job")), "refused 12 123\n");
    let unknown = printed_after_failure(&example("unknown_tag.job"));
    assert_eq!(unknown, "refused 13 50\n");
    let long = printed_after_failure(&example("too_long.job"));
    assert_eq!(long, "refused 11 0\n");
}

#[test]
fn too_long_comes_first() {
    let longest = vec![0x55; 65_535];
    assert_eq!(lines_of(&ended(longest)), "refused 13 0\n");
    assert_eq!(lines_of(&ended(vec![0x55; 65_536])), "refused 11 0\n");
}

#[test]
fn the_stored_vectors_are_what_is_made_now() {
    assert!(vectors::check(&repository().join("crates/replay/data")));
}

#[test]
fn drawn_jobs_print_the_same_with_original_and_model() {
    assert!(oracle::job_command::compare(1, 20_000));
}
