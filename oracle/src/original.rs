//! The five calls on the original. Nothing is refused here: what document 01 refuses is handed on as far as the
//! original's types can say it, and a panic (failed `expect`, overflow, assertion) is caught and answered as `Err`.

use std::cell::Cell;
use std::panic::{self, AssertUnwindSafe};
use std::sync::{Arc, Once};

use crate::call::{
    Candidate, FinderAnswer, FinderCall, Mode, Place, ScriptAnswer, ScriptCall, Stats, SweepAnswer,
    SweepCall,
};
use crate::candidate_window::{do_l1_mapping, L1Candidate, L1Stats, PackedMinimizerHit};
use crate::compute_identity::{DistanceEstimate, DistanceModel};
use crate::mapper_with_pivot::{pivot, BitsetBottomSketchSlideMapper};
use crate::simd_minimizer::{Minimizer, MinimizerMode, MinmerInterval};
use crate::sliding_mapper::{do_l2_mapping, L2Stats, MappingResult};
use crate::utils::{CompactLookupIndex, MinmerIntervalLookup, PackedMinmerInterval};
use crate::{AniConfig, QuerySketch, ReferenceIndex};

/// The message of a panic inside the original.
pub type Panicked = String;

thread_local! {
    static INSIDE: Cell<bool> = const { Cell::new(false) };
}

/// Runs the original; its panics are silent and answered, everyone else's are printed as ever.
fn guarded<T>(run: impl FnOnce() -> T) -> Result<T, Panicked> {
    static HOOK: Once = Once::new();
    HOOK.call_once(|| {
        let usual = panic::take_hook();
        panic::set_hook(Box::new(move |info| {
            if !INSIDE.with(Cell::get) {
                usual(info);
            }
        }));
    });
    INSIDE.with(|inside| inside.set(true));
    let outcome = panic::catch_unwind(AssertUnwindSafe(run));
    INSIDE.with(|inside| inside.set(false));
    outcome.map_err(|payload| match payload.downcast::<String>() {
        Ok(text) => *text,
        Err(payload) => payload
            .downcast::<&str>()
            .map_or_else(|_| "panic".to_string(), |text| text.to_string()),
    })
}

/// The mapper, moved step by step, and looked at after each.
pub fn script(call: &ScriptCall) -> Result<ScriptAnswer, Panicked> {
    guarded(|| {
        let mut mapper = BitsetBottomSketchSlideMapper::new(&call.query, &call.coords);
        let look =
            |mapper: &BitsetBottomSketchSlideMapper| (pivot(mapper) as u32, mapper.shared() as u32);
        let mut last = look(&mapper);
        let mut pivots = Vec::with_capacity(call.indexes.len());
        let mut shared = Vec::with_capacity(call.indexes.len());
        for (&index, &kind) in call.indexes.iter().zip(&call.kinds) {
            match kind {
                0 => mapper.delete_ref(index as usize),
                _ => mapper.insert_ref(index as usize),
            }
            last = look(&mapper);
            pivots.push(last.0);
            shared.push(last.1);
        }
        ScriptAnswer::Done {
            pivots,
            shared,
            last,
        }
    })
}

/// Either sweep, on a reference of one contig.
pub fn sweep(call: &SweepCall) -> Result<SweepAnswer, Panicked> {
    guarded(|| PreparedSweep::new(call).answer())
}

/// Either finder. Group g is what the lookup has for query hash g.
pub fn finder(call: &FinderCall) -> Result<FinderAnswer, Panicked> {
    guarded(|| PreparedFinder::new(call).answer())
}

/// A sweep in the original's own types, so that its function alone can be timed.
pub struct PreparedSweep {
    query: QuerySketch,
    candidate: L1Candidate,
    reference: ReferenceIndex,
    config: AniConfig,
    window: usize,
}

impl PreparedSweep {
    pub fn new(call: &SweepCall) -> Self {
        PreparedSweep {
            query: sketch(call),
            candidate: L1Candidate {
                seq_id: 0,
                range_start: call.range_start as usize,
                range_end: call.range_end as usize,
            },
            reference: contig(call),
            config: config(call.mode, call.kmer, call.minimum, 0),
            window: call.window as usize,
        }
    }

    /// The original's function; its panics are the caller's.
    pub fn answer(&self) -> SweepAnswer {
        let (mapping, stats) = do_l2_mapping(
            &self.query,
            self.candidate,
            &self.reference,
            &self.config,
            self.window,
        )
        .expect("the sweeps make no error");
        let stats = told_stats(stats);
        match mapping {
            None => SweepAnswer::Nothing(stats),
            Some(mapping) => SweepAnswer::Placed(told_place(mapping), stats),
        }
    }
}

/// A finder in the original's own types, its groups already looked up.
pub struct PreparedFinder {
    query: QuerySketch,
    reference: ReferenceIndex,
    config: AniConfig,
}

impl PreparedFinder {
    pub fn new(call: &FinderCall) -> Self {
        PreparedFinder {
            query: QuerySketch {
                fragment_id: 0,
                len: call.length as usize,
                unique_hashes: (0..call.groups.len() as u64).collect(),
                distance_table: Arc::new([]),
            },
            reference: lookups(call),
            config: config(call.mode, 1, 0.0, call.minimum as usize),
        }
    }

    /// The original's function and its candidates as it makes them; `told` turns them into an answer.
    pub fn run(&self) -> FoundByOriginal {
        FoundByOriginal(do_l1_mapping(&self.query, &self.reference, &self.config))
    }

    pub fn answer(&self) -> FinderAnswer {
        self.run().told()
    }
}

/// What the original's finder makes.
pub struct FoundByOriginal((Vec<L1Candidate>, L1Stats));

impl FoundByOriginal {
    pub fn told(self) -> FinderAnswer {
        let (found, stats) = self.0;
        FinderAnswer::Listed {
            ranges: found.into_iter().map(told_candidate).collect(),
            seed_hits: stats.seed_hits as u32,
        }
    }
}

fn config(mode: Mode, kmer: u32, minimum: f64, minimum_hits: usize) -> AniConfig {
    AniConfig {
        kmer_size: kmer as usize,
        min_identity: minimum,
        distance_model: DistanceModel { minimum_hits },
        minimizer_mode: match mode {
            Mode::Minimizer => MinimizerMode::Scalar,
            Mode::Interval => MinimizerMode::ScalarMinmer,
        },
        chain: false,
    }
}

fn sketch(call: &SweepCall) -> QuerySketch {
    let estimates = call.identities.iter().zip(&call.uppers);
    QuerySketch {
        fragment_id: 0,
        len: call.length as usize,
        unique_hashes: call.query.clone(),
        distance_table: estimates
            .map(|(&identity, &identity_upper_bound)| DistanceEstimate {
                identity,
                identity_upper_bound,
            })
            .collect(),
    }
}

// One contig has one range.
#[allow(clippy::single_range_in_vec_init)]
fn empty_reference() -> ReferenceIndex {
    ReferenceIndex {
        minimizers: Vec::new(),
        contig_ranges: vec![0..0],
        lookup: CompactLookupIndex { groups: Vec::new() },
        minmer_intervals: Vec::new(),
        contig_minmer_ranges: vec![0..0],
        minmer_lookup: None,
        freq_threshold: usize::MAX,
    }
}

fn contig(call: &SweepCall) -> ReferenceIndex {
    let mut reference = empty_reference();
    match call.mode {
        Mode::Minimizer => {
            reference.minimizers = minimizers(call);
            reference.contig_ranges[0] = 0..reference.minimizers.len();
        }
        Mode::Interval => {
            reference.minmer_intervals = intervals(call);
            reference.contig_minmer_ranges[0] = 0..reference.minmer_intervals.len();
        }
    }
    reference
}

fn minimizers(call: &SweepCall) -> Vec<Minimizer> {
    let items = call.hashes.iter().zip(&call.starts);
    items
        .map(|(&hash, &wpos)| Minimizer {
            hash,
            seq_id: 0,
            wpos: wpos as usize,
        })
        .collect()
}

fn intervals(call: &SweepCall) -> Vec<MinmerInterval> {
    let items = call.hashes.iter().zip(&call.starts).zip(&call.ends);
    items
        .map(|((&hash, &start), &end)| MinmerInterval {
            hash,
            seq_id: 0,
            start: start as usize,
            end: end as usize,
        })
        .collect()
}

fn lookups(call: &FinderCall) -> ReferenceIndex {
    let mut reference = empty_reference();
    reference.freq_threshold = call.threshold as usize;
    match call.mode {
        Mode::Minimizer => {
            let hits = call.contigs.iter().zip(&call.starts);
            let hits = hits.map(|(&seq_id, &wpos)| PackedMinimizerHit { seq_id, wpos });
            reference.lookup.groups = grouped(&call.groups, hits);
        }
        Mode::Interval => {
            let hits = call.contigs.iter().zip(&call.starts).zip(&call.ends);
            let hits =
                hits.map(|((&seq_id, &start), &end)| PackedMinmerInterval { seq_id, start, end });
            let groups = grouped(&call.groups, hits);
            reference.minmer_lookup = Some(MinmerIntervalLookup { groups });
        }
    }
    reference
}

/// The hits cut into groups of the given lengths.
fn grouped<T>(lengths: &[u32], mut hits: impl Iterator<Item = T>) -> Vec<Vec<T>> {
    let cut = |&length: &u32| hits.by_ref().take(length as usize).collect();
    lengths.iter().map(cut).collect()
}

fn told_stats(stats: L2Stats) -> Stats {
    Stats {
        windows: stats.windows,
        coords: stats.coord_count as u32,
        items: stats.reference_minimizers as u32,
    }
}

fn told_place(mapping: MappingResult) -> Place {
    Place {
        start: mapping.ref_start as u64,
        end: mapping.ref_end as u64,
        shared: mapping.conserved_sketches as u32,
        size: mapping.sketch_size as u32,
        identity: mapping.identity,
        upper: mapping.identity_upper_bound,
    }
}

fn told_candidate(candidate: L1Candidate) -> Candidate {
    Candidate {
        contig: candidate.seq_id as u32,
        start: candidate.range_start as u32,
        end: candidate.range_end as u32,
    }
}
