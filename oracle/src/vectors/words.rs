//! The records of the stored vectors as words. README.md, "Stored vectors", says what stands where.

use crate::call::{
    Candidate, FinderAnswer, FinderCall, Mode, Refusal, ScriptAnswer, ScriptCall, SweepAnswer,
    SweepCall,
};

/// No lent buffer is longer.
const MOST_ROOM: usize = 8_192;

/// Words in order; the first is how many there are.
struct Record(Vec<u64>);

impl Record {
    fn begin() -> Self {
        Record(vec![0])
    }

    fn words<const N: usize>(&mut self, words: [u64; N]) {
        self.0.extend(words);
    }

    fn sizes<const N: usize>(&mut self, sizes: [usize; N]) {
        self.words(sizes.map(|size| size as u64));
    }

    /// Lengths of lent buffers, which the one who replays must have at hand.
    fn room<const N: usize>(&mut self, lengths: [usize; N]) {
        assert!(lengths.iter().all(|&length| length <= MOST_ROOM));
        self.sizes(lengths);
    }

    fn list<T: Copy + Into<u64>>(&mut self, list: &[T]) {
        self.0.extend(list.iter().map(|&element| element.into()));
    }

    fn floats(&mut self, list: &[f64]) {
        self.0.extend(list.iter().map(|&float| bits(float)));
    }

    fn end(mut self) -> Vec<u64> {
        self.0[0] = self.0.len() as u64;
        self.0
    }
}

const NAN: u64 = 0x7ff8_0000_0000_0000;

/// A library vector has one NaN alone, as the language has.
fn bits(float: f64) -> u64 {
    assert!(!float.is_nan() || float.to_bits() == NAN, "another NaN");
    float.to_bits()
}

/// Number and place; both 0 where nothing was refused.
fn refused(refusal: Option<Refusal>) -> [u64; 2] {
    refusal.map_or([0, 0], |refusal| {
        [refusal.number.into(), refusal.place.into()]
    })
}

pub fn script(call: &ScriptCall, answer: &ScriptAnswer) -> Vec<u64> {
    let room = call.room;
    let (refusal, pivots, shared, last) = match answer {
        ScriptAnswer::Refused(refusal) => (Some(*refusal), &[][..], &[][..], (0, 0)),
        ScriptAnswer::Done {
            pivots,
            shared,
            last,
        } => (None, &pivots[..], &shared[..], *last),
    };
    let mut record = Record::begin();
    record.sizes([call.query.len(), call.coords.len()]);
    record.sizes([call.indexes.len(), call.kinds.len()]);
    record.room([room.counts, room.words, room.summary]);
    record.room([room.pivots, room.shared]);
    record.words(refused(refusal));
    record.words([last.0.into(), last.1.into()]);
    record.list(&call.query);
    record.list(&call.coords);
    record.list(&call.indexes);
    record.list(&call.kinds);
    record.list(pivots);
    record.list(shared);
    record.end()
}

pub fn sweep(call: &SweepCall, answer: &SweepAnswer) -> Vec<u64> {
    let room = call.room;
    let window = match call.mode {
        Mode::Minimizer => call.window,
        Mode::Interval => 0,
    };
    let mut record = Record::begin();
    record.list(&[call.kmer, window, call.length]);
    record.list(&[call.range_start, call.range_end]);
    record.words([bits(call.minimum)]);
    record.sizes([call.query.len(), call.hashes.len()]);
    record.sizes([call.starts.len(), call.ends.len()]);
    record.sizes([call.identities.len(), call.uppers.len()]);
    record.room([room.hashes, room.counts, room.items]);
    record.room([room.words, room.summary, room.events]);
    record.words(told(answer));
    record.list(&call.query);
    record.list(&call.hashes);
    record.list(&call.starts);
    record.list(&call.ends);
    record.floats(&call.identities);
    record.floats(&call.uppers);
    record.end()
}

/// Number, place; placed or not; start, end, shared, size, identity, upper bound; windows, coordinates, items.
fn told(answer: &SweepAnswer) -> [u64; 12] {
    let mut told = [0; 12];
    let stats = match answer {
        SweepAnswer::Refused(refusal) => {
            told[..2].copy_from_slice(&refused(Some(*refusal)));
            return told;
        }
        SweepAnswer::Nothing(stats) => stats,
        SweepAnswer::Placed(place, stats) => {
            let [shared, size] = [place.shared, place.size].map(u64::from);
            let estimate = [place.identity, place.upper].map(bits);
            told[2] = 1;
            told[3..7].copy_from_slice(&[place.start, place.end, shared, size]);
            told[7..9].copy_from_slice(&estimate);
            stats
        }
    };
    told[9..].copy_from_slice(&[stats.windows, stats.coords.into(), stats.items.into()]);
    told
}

pub fn finder(call: &FinderCall, answer: &FinderAnswer) -> Vec<u64> {
    let room = call.room;
    let length = match call.mode {
        Mode::Minimizer => call.length,
        Mode::Interval => 0,
    };
    let (refusal, ranges, seed_hits) = match answer {
        FinderAnswer::Refused(refusal) => (Some(*refusal), &[][..], 0),
        FinderAnswer::Listed { ranges, seed_hits } => (None, &ranges[..], *seed_hits),
    };
    let column = |of: fn(&Candidate) -> u32| ranges.iter().map(of).collect::<Vec<_>>();
    let mut record = Record::begin();
    record.list(&[call.minimum, length]);
    record.words([call.threshold]);
    record.sizes([call.groups.len(), call.contigs.len()]);
    record.sizes([call.starts.len(), call.ends.len()]);
    record.room([room.keys, room.end_keys]);
    record.room([room.contigs, room.starts, room.ends]);
    record.words(refused(refusal));
    record.words([ranges.len() as u64, seed_hits.into()]);
    record.list(&call.groups);
    record.list(&call.contigs);
    record.list(&call.starts);
    record.list(&call.ends);
    record.list(&column(|range| range.contig));
    record.list(&column(|range| range.start));
    record.list(&column(|range| range.end));
    record.end()
}

/// Bytes go eight to a word, the first lowest, and the last word is filled up with zeros.
pub fn job(bytes: &[u8], failed: bool, lines: &str) -> Vec<u64> {
    let mut record = Record::begin();
    record.sizes([bytes.len(), lines.len()]);
    record.words([failed.into()]);
    for bytes in [bytes, lines.as_bytes()] {
        for eight in bytes.chunks(8) {
            let mut word = [0; 8];
            word[..eight.len()].copy_from_slice(eight);
            record.words([u64::from_le_bytes(word)]);
        }
    }
    record.end()
}
