//! The stored vectors, walked as README.md says they stand, give back calls that the model answers as they say.

use std::path::Path;

use oracle::call::{
    FinderAnswer, FinderCall, FinderRoom, Mode, ScriptAnswer, ScriptCall, ScriptRoom, SweepAnswer,
    SweepCall, SweepRoom,
};
use oracle::job_command::lines_of;
use oracle::model;
use oracle::vectors::job_cases::Input;

/// One record: its words in order, the first being their number.
struct Record<'a> {
    words: &'a [u64],
    at: usize,
}

impl Record<'_> {
    fn words<const N: usize>(&mut self) -> [u64; N] {
        self.list(N as u64).try_into().unwrap()
    }

    fn sizes<const N: usize>(&mut self) -> [usize; N] {
        self.words::<N>().map(|word| word as usize)
    }

    fn list(&mut self, count: u64) -> Vec<u64> {
        let from = self.at;
        self.at += count as usize;
        self.words[from..self.at].to_vec()
    }

    fn u32s(&mut self, count: u64) -> Vec<u32> {
        let list = self.list(count);
        list.iter().map(|&word| word.try_into().unwrap()).collect()
    }

    fn floats(&mut self, count: u64) -> Vec<f64> {
        let list = self.list(count);
        list.iter().map(|&word| f64::from_bits(word)).collect()
    }

    fn bytes(&mut self, count: u64) -> Vec<u8> {
        let words = self.list(count.div_ceil(8));
        let mut bytes: Vec<u8> = words.iter().flat_map(|word| word.to_le_bytes()).collect();
        assert!(bytes[count as usize..].iter().all(|&byte| byte == 0));
        bytes.truncate(count as usize);
        bytes
    }
}

/// Hands each record of a file on, and sees that header and records fill it exactly.
fn each_record(name: &str, replay: fn(&mut Record)) {
    let folder = Path::new(env!("CARGO_MANIFEST_DIR")).join("../crates/replay/data");
    let bytes = std::fs::read(folder.join(name)).unwrap();
    let word = |eight: &[u8]| u64::from_le_bytes(eight.try_into().unwrap());
    let words: Vec<u64> = bytes.chunks(8).map(word).collect();
    assert_eq!(&bytes[..8], b"kelonvec");
    assert_eq!(words[1], 1);
    assert!(words[2] >= 300, "{name} has few records");
    let (mut at, mut largest) = (4, 0);
    for _ in 0..words[2] {
        let length = words[at] as usize;
        let words = &words[at..at + length];
        let mut record = Record { words, at: 1 };
        replay(&mut record);
        assert_eq!(record.at, length, "{name}: a record is longer than told");
        at += length;
        largest = largest.max(length);
    }
    assert_eq!(at, words.len());
    assert_eq!(largest as u64, words[3]);
}

#[test]
fn scripts() {
    each_record("script.bin", |record| {
        let [query, coords, indexes, kinds] = record.words();
        let [counts, words, summary, pivots, shared] = record.sizes();
        let [number, place, last_pivot, last_shared] = record.words();
        let call = ScriptCall {
            query: record.list(query),
            coords: record.list(coords),
            indexes: record.u32s(indexes),
            kinds: record.u32s(kinds).iter().map(|&kind| kind as u8).collect(),
            room: ScriptRoom {
                counts,
                words,
                summary,
                pivots,
                shared,
            },
        };
        match model::script(&call) {
            ScriptAnswer::Refused(refusal) => {
                assert_eq!(
                    [number, place],
                    [refusal.number.into(), refusal.place.into()]
                );
                assert_eq!([last_pivot, last_shared], [0, 0]);
            }
            ScriptAnswer::Done {
                pivots,
                shared,
                last,
            } => {
                assert_eq!([number, place], [0, 0]);
                assert_eq!([last_pivot, last_shared], [last.0, last.1].map(u64::from));
                assert_eq!(record.u32s(indexes), pivots);
                assert_eq!(record.u32s(indexes), shared);
            }
        }
    });
}

fn sweep(record: &mut Record, mode: Mode) {
    let [kmer, window, length, range_start, range_end] =
        record.words::<5>().map(|word| word as u32);
    let [minimum] = record.words();
    let [query, items, starts, ends, identities, uppers] = record.words();
    let [hashes, counts, item_coords, words, summary, events] = record.sizes();
    let told: [u64; 12] = record.words();
    let call = SweepCall {
        mode,
        kmer,
        window,
        length,
        range_start,
        range_end,
        query: record.list(query),
        hashes: record.list(items),
        starts: record.u32s(starts),
        ends: record.u32s(ends),
        identities: record.floats(identities),
        uppers: record.floats(uppers),
        minimum: f64::from_bits(minimum),
        room: SweepRoom {
            hashes,
            counts,
            items: item_coords,
            words,
            summary,
            events,
        },
    };
    assert_eq!(told, told_by(&model::sweep(&call)));
}

fn told_by(answer: &SweepAnswer) -> [u64; 12] {
    match answer {
        SweepAnswer::Refused(refusal) => {
            let (number, place) = (refusal.number.into(), refusal.place.into());
            [number, place, 0, 0, 0, 0, 0, 0, 0, 0, 0, 0]
        }
        SweepAnswer::Nothing(stats) => {
            let (coords, items) = (stats.coords.into(), stats.items.into());
            [0, 0, 0, 0, 0, 0, 0, 0, 0, stats.windows, coords, items]
        }
        SweepAnswer::Placed(place, stats) => [
            0,
            0,
            1,
            place.start,
            place.end,
            place.shared.into(),
            place.size.into(),
            place.identity.to_bits(),
            place.upper.to_bits(),
            stats.windows,
            stats.coords.into(),
            stats.items.into(),
        ],
    }
}

#[test]
fn minimizer_sweeps() {
    each_record("minimizer.bin", |record| sweep(record, Mode::Minimizer));
}

#[test]
fn interval_sweeps() {
    each_record("interval.bin", |record| sweep(record, Mode::Interval));
}

fn finder(record: &mut Record, mode: Mode) {
    let [minimum, length, threshold] = record.words();
    let [groups, hits, starts, ends] = record.words();
    let [keys, end_keys, contig_list, start_list, end_list] = record.sizes();
    let [number, place, listed, told_hits] = record.words();
    let call = FinderCall {
        mode,
        groups: record.u32s(groups),
        contigs: record.u32s(hits),
        starts: record.u32s(starts),
        ends: record.u32s(ends),
        minimum: minimum as u32,
        length: length as u32,
        threshold,
        room: FinderRoom {
            keys,
            end_keys,
            contigs: contig_list,
            starts: start_list,
            ends: end_list,
        },
    };
    let lists = [(); 3].map(|()| record.u32s(listed));
    match model::finder(&call) {
        FinderAnswer::Refused(refusal) => {
            assert_eq!(
                [number, place],
                [refusal.number.into(), refusal.place.into()]
            );
            assert_eq!([listed, told_hits], [0, 0]);
        }
        FinderAnswer::Listed { ranges, seed_hits } => {
            assert_eq!([number, place, told_hits], [0, 0, seed_hits.into()]);
            assert_eq!(
                lists[0],
                ranges.iter().map(|r| r.contig).collect::<Vec<_>>()
            );
            assert_eq!(lists[1], ranges.iter().map(|r| r.start).collect::<Vec<_>>());
            assert_eq!(lists[2], ranges.iter().map(|r| r.end).collect::<Vec<_>>());
        }
    }
}

#[test]
fn minimizer_finders() {
    each_record("minimizer_finder.bin", |record| {
        finder(record, Mode::Minimizer)
    });
}

#[test]
fn interval_finders() {
    each_record("interval_finder.bin", |record| {
        finder(record, Mode::Interval)
    });
}

#[test]
fn jobs() {
    each_record("jobs.bin", |record| {
        let [job, lines, failed] = record.words();
        let input = Input {
            bytes: record.bytes(job),
            failed: failed == 1,
        };
        assert_eq!(record.bytes(lines), lines_of(&input).as_bytes());
    });
}
