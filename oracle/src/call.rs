//! What the five library calls take and answer, as plain values: the words that the original, the model and the
//! stored vectors share. Document 01's names; `room` is how long each lent buffer is.

/// A refusal's number (1 to 8) and place.
#[derive(Clone, Copy, Debug, PartialEq, Eq)]
pub struct Refusal {
    pub number: u8,
    pub place: u32,
}

#[derive(Clone, Copy, Debug, PartialEq, Eq)]
pub enum Mode {
    Minimizer,
    Interval,
}

/// The five calls.
#[derive(Clone, Copy, Debug, PartialEq, Eq)]
pub enum Kind {
    Script,
    Sweep(Mode),
    Finder(Mode),
}

impl Kind {
    pub const ALL: [Kind; 5] = [
        Kind::Script,
        Kind::Sweep(Mode::Minimizer),
        Kind::Sweep(Mode::Interval),
        Kind::Finder(Mode::Minimizer),
        Kind::Finder(Mode::Interval),
    ];

    pub fn name(self) -> &'static str {
        match self {
            Kind::Script => "script",
            Kind::Sweep(Mode::Minimizer) => "minimizer sweep",
            Kind::Sweep(Mode::Interval) => "interval sweep",
            Kind::Finder(Mode::Minimizer) => "minimizer finder",
            Kind::Finder(Mode::Interval) => "interval finder",
        }
    }
}

#[derive(Clone, Debug, PartialEq)]
pub struct ScriptCall {
    pub query: Vec<u64>,
    pub coords: Vec<u64>,
    pub indexes: Vec<u32>,
    /// 0 deletes, 1 inserts.
    pub kinds: Vec<u8>,
    pub room: ScriptRoom,
}

#[derive(Clone, Copy, Debug, PartialEq, Eq)]
pub struct ScriptRoom {
    pub counts: usize,
    pub words: usize,
    pub summary: usize,
    pub pivots: usize,
    pub shared: usize,
}

#[derive(Clone, Debug, PartialEq, Eq)]
pub enum ScriptAnswer {
    Refused(Refusal),
    /// Pivot and shared count after each step, and the final pair.
    Done {
        pivots: Vec<u32>,
        shared: Vec<u32>,
        last: (u32, u32),
    },
}

/// Either sweep. The minimizer sweep has no `ends` and no `events`; the interval sweep has no `window`.
#[derive(Clone, Debug, PartialEq)]
pub struct SweepCall {
    pub mode: Mode,
    pub kmer: u32,
    pub window: u32,
    pub length: u32,
    pub range_start: u32,
    pub range_end: u32,
    pub query: Vec<u64>,
    pub hashes: Vec<u64>,
    /// Minimizer positions, or interval starts.
    pub starts: Vec<u32>,
    pub ends: Vec<u32>,
    pub identities: Vec<f64>,
    pub uppers: Vec<f64>,
    pub minimum: f64,
    pub room: SweepRoom,
}

#[derive(Clone, Copy, Debug, PartialEq, Eq)]
pub struct SweepRoom {
    pub hashes: usize,
    pub counts: usize,
    pub items: usize,
    pub words: usize,
    pub summary: usize,
    pub events: usize,
}

#[derive(Clone, Copy, Debug, PartialEq, Eq, Default)]
pub struct Stats {
    pub windows: u64,
    pub coords: u32,
    pub items: u32,
}

/// The best score, and the first and last position that has it: what a sweep knows before the identity test.
#[derive(Clone, Copy, Debug, PartialEq, Eq)]
pub struct Best {
    pub shared: u32,
    pub first: u64,
    pub last: u64,
}

#[derive(Clone, Copy, Debug)]
pub struct Place {
    pub start: u64,
    pub end: u64,
    pub shared: u32,
    pub size: u32,
    pub identity: f64,
    pub upper: f64,
}

#[derive(Clone, Copy, Debug)]
pub enum SweepAnswer {
    Refused(Refusal),
    Nothing(Stats),
    Placed(Place, Stats),
}

/// Either finder. The minimizer finder has no `ends`; the interval finder has no `length`.
#[derive(Clone, Debug, PartialEq, Eq)]
pub struct FinderCall {
    pub mode: Mode,
    /// One length per query hash that was found, in the order of the hits.
    pub groups: Vec<u32>,
    pub contigs: Vec<u32>,
    /// Positions, or interval starts.
    pub starts: Vec<u32>,
    pub ends: Vec<u32>,
    pub minimum: u32,
    pub length: u32,
    pub threshold: u64,
    pub room: FinderRoom,
}

#[derive(Clone, Copy, Debug, PartialEq, Eq)]
pub struct FinderRoom {
    /// Keys of hits, or of interval starts.
    pub keys: usize,
    pub end_keys: usize,
    pub contigs: usize,
    pub starts: usize,
    pub ends: usize,
}

#[derive(Clone, Copy, Debug, PartialEq, Eq)]
pub struct Candidate {
    pub contig: u32,
    pub start: u32,
    pub end: u32,
}

#[derive(Clone, Debug, PartialEq, Eq)]
pub enum FinderAnswer {
    Refused(Refusal),
    Listed {
        ranges: Vec<Candidate>,
        seed_hits: u32,
    },
}
