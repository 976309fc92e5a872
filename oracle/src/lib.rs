//! The judge of Kelonbaro: the original Rust, unchanged, beside a plain model written from document 01, and the
//! commands that compare the two.
//!
//! `call` says what a library call takes and answers, `original` runs it on the original, `model` on the model.

// The original says `anyhow::Result`; naming this crate `anyhow` lets `shims/anyhow.rs` stand in for that crate.
extern crate self as anyhow;

// What the original leans on, at the paths where it looks for it.
#[path = "shims/anyhow.rs"]
mod anyhow_shim;
#[path = "shims/chaining.rs"]
mod chaining;
#[path = "shims/compute_identity.rs"]
mod compute_identity;
#[path = "shims/simd_minimizer.rs"]
mod simd_minimizer;
#[path = "shims/utils.rs"]
mod utils;

pub use anyhow_shim::Result;
use utils::{u32_checked, AniConfig, HashValue, Offset, QuerySketch, ReferenceIndex, SeqId};

// The original, byte for byte (so the formatter is kept off). It has parts that only its own program calls.
#[allow(dead_code)]
#[rustfmt::skip]
#[path = "../turboani/candidate_window.rs"]
mod candidate_window;
#[allow(dead_code)]
#[rustfmt::skip]
#[path = "../turboani/sliding_mapper.rs"]
mod sliding_mapper;
// The mapper's file a second time, with one function more: the pivot is private to its module.
#[allow(dead_code)]
#[path = "shims/mapper_with_pivot.rs"]
mod mapper_with_pivot;

pub mod antt;
pub mod call;
pub mod case;
pub mod diff;
pub mod differences;
pub mod examples;
pub mod exhaust;
pub mod folder;
pub mod generate;
pub mod job_command;
pub mod model;
pub mod original;
pub mod program;
pub mod random;
pub mod readable;
pub mod shrink;
pub mod vectors;
