//! The job file, from document 01: fields of tag, length and data, read from the front until the first that is wrong.

use super::needs;
use crate::call::{Mode, SweepCall};

/// A file refusal's number (11 to 17) and the byte offset of the field's tag.
#[derive(Clone, Copy, Debug, PartialEq, Eq)]
pub struct FileRefusal {
    pub number: u8,
    pub offset: u32,
}

/// A decoded job. Floats are kept as the bits they stood in, so that a NaN's payload is not lost.
#[derive(Clone, Debug, PartialEq, Eq)]
pub struct Job {
    pub mode: Mode,
    pub kmer: u32,
    pub window: u32,
    pub length: u32,
    pub range_start: u32,
    pub range_end: u32,
    pub minimum_bits: u64,
    pub query: Vec<u64>,
    pub items: Vec<Item>,
    pub estimates: Vec<Pair>,
}

/// `end` is 0 in minimizer mode, where an item has none.
#[derive(Clone, Copy, Debug, PartialEq, Eq)]
pub struct Item {
    pub hash: u64,
    pub start: u32,
    pub end: u32,
}

#[derive(Clone, Copy, Debug, PartialEq, Eq)]
pub struct Pair {
    pub identity_bits: u64,
    pub upper_bits: u64,
}

/// A job has at most this many bytes; the program reads one more to see that it is too long.
pub const JOB_LIMIT: usize = 65_535;

pub const VERSION: u8 = 0x01;
pub const MODE: u8 = 0x02;
pub const SETTINGS: u8 = 0x03;
pub const MINIMUM: u8 = 0x04;
pub const QUERY: u8 = 0x05;
pub const ITEMS: u8 = 0x06;
pub const ESTIMATES: u8 = 0x07;
pub const END: u8 = 0xff;

/// One row for each kind of field.
struct Kind {
    tag: u8,
    /// Unit size in minimizer and in interval mode.
    unit: [usize; 2],
    /// Exactly one unit, or any number of whole units.
    one: bool,
    repeats: bool,
    needed: bool,
    /// How many units the program takes, joined.
    limit: usize,
}

const fn kind(
    tag: u8,
    unit: [usize; 2],
    one: bool,
    repeats: bool,
    needed: bool,
    limit: usize,
) -> Kind {
    Kind {
        tag,
        unit,
        one,
        repeats,
        needed,
        limit,
    }
}

const TABLE: [Kind; 8] = [
    kind(VERSION, [1, 1], true, false, true, 1),
    kind(MODE, [1, 1], true, false, true, 1),
    kind(SETTINGS, [20, 20], true, false, true, 1),
    kind(MINIMUM, [8, 8], true, false, false, 1),
    kind(QUERY, [8, 8], false, false, true, 512),
    kind(ITEMS, [12, 16], false, true, true, 2_048),
    kind(ESTIMATES, [16, 16], false, true, true, 513),
    kind(END, [0, 0], true, false, true, 1),
];

/// A whole field: where its tag stands, its tag, its data.
struct Field<'a> {
    offset: usize,
    tag: u8,
    data: &'a [u8],
}

fn refuse<T>(number: u8, offset: usize) -> Result<T, FileRefusal> {
    Err(FileRefusal {
        number,
        offset: offset as u32,
    })
}

/// The job, or the first refusal met from the front.
pub fn read(bytes: &[u8]) -> Result<Job, FileRefusal> {
    if bytes.len() > JOB_LIMIT {
        return refuse(11, 0);
    }
    let mut seen: Vec<Field> = Vec::new();
    let mut offset = 0;
    loop {
        let field = field_at(bytes, offset)?;
        check(&seen, &field)?;
        offset += 3 + field.data.len();
        let last = field.tag == END;
        seen.push(field);
        if last {
            break;
        }
    }
    if offset < bytes.len() {
        return refuse(17, offset);
    }
    Ok(decode(&seen))
}

/// 12: the header or the data is cut, or nothing stands where a field or FF should.
fn field_at(bytes: &[u8], offset: usize) -> Result<Field<'_>, FileRefusal> {
    let rest = &bytes[offset..];
    if rest.len() < 3 {
        return refuse(12, offset);
    }
    let length = usize::from(u16::from_le_bytes([rest[1], rest[2]]));
    if rest.len() < 3 + length {
        return refuse(12, offset);
    }
    Ok(Field {
        offset,
        tag: rest[0],
        data: &rest[3..3 + length],
    })
}

/// 13 to 16, in this order, for a whole field after those seen.
fn check(seen: &[Field], field: &Field) -> Result<(), FileRefusal> {
    let Some(kind) = TABLE.iter().find(|kind| kind.tag == field.tag) else {
        return refuse(13, field.offset);
    };
    if misplaced(seen, kind) {
        return refuse(14, field.offset);
    }
    let unit = kind.unit[usize::from(mode_byte(seen))];
    if !fits(kind, unit, field.data.len()) || wrong_value(field) {
        return refuse(15, field.offset);
    }
    if joined(seen, field.tag).len() + field.data.len() > kind.limit * unit {
        return refuse(16, field.offset);
    }
    Ok(())
}

/// Out of order, repeated, or a needed field is missing before this one.
fn misplaced(seen: &[Field], kind: &Kind) -> bool {
    let before = seen.last().map_or(0, |field| field.tag);
    let missing = |other: &Kind| other.needed && before < other.tag && other.tag < kind.tag;
    kind.tag < before || (kind.tag == before && !kind.repeats) || TABLE.iter().any(missing)
}

fn fits(kind: &Kind, unit: usize, length: usize) -> bool {
    if kind.one {
        length == unit
    } else {
        length % unit == 0
    }
}

fn wrong_value(field: &Field) -> bool {
    match field.tag {
        VERSION => field.data[0] != 1,
        MODE => field.data[0] > 1,
        _ => false,
    }
}

/// The data of all fields with a tag, joined.
fn joined(seen: &[Field], tag: u8) -> Vec<u8> {
    let data = seen
        .iter()
        .filter(|field| field.tag == tag)
        .map(|field| field.data);
    data.collect::<Vec<_>>().concat()
}

/// 0 as long as no mode was read: the fields before it are alike in both.
fn mode_byte(seen: &[Field]) -> u8 {
    joined(seen, MODE).first().copied().unwrap_or(0)
}

fn u32_at(data: &[u8], at: usize) -> u32 {
    u32::from_le_bytes(data[at..at + 4].try_into().unwrap())
}

fn u64_at(data: &[u8], at: usize) -> u64 {
    u64::from_le_bytes(data[at..at + 8].try_into().unwrap())
}

fn decode(seen: &[Field]) -> Job {
    let interval = mode_byte(seen) == 1;
    let settings = joined(seen, SETTINGS);
    let minimum = joined(seen, MINIMUM);
    let item = |unit: &[u8]| Item {
        hash: u64_at(unit, 0),
        start: u32_at(unit, 8),
        end: if interval { u32_at(unit, 12) } else { 0 },
    };
    let pair = |unit: &[u8]| Pair {
        identity_bits: u64_at(unit, 0),
        upper_bits: u64_at(unit, 8),
    };
    Job {
        mode: if interval {
            Mode::Interval
        } else {
            Mode::Minimizer
        },
        kmer: u32_at(&settings, 0),
        window: u32_at(&settings, 4),
        length: u32_at(&settings, 8),
        range_start: u32_at(&settings, 12),
        range_end: u32_at(&settings, 16),
        // Absent means 0.0, whose bits are 0.
        minimum_bits: if minimum.is_empty() {
            0
        } else {
            u64_at(&minimum, 0)
        },
        query: joined(seen, QUERY)
            .chunks_exact(8)
            .map(|unit| u64_at(unit, 0))
            .collect(),
        items: joined(seen, ITEMS)
            .chunks_exact(if interval { 16 } else { 12 })
            .map(item)
            .collect(),
        estimates: joined(seen, ESTIMATES).chunks_exact(16).map(pair).collect(),
    }
}

impl Job {
    /// What the library is asked. The program's buffers are never too short.
    pub fn sweep(&self) -> SweepCall {
        let interval = self.mode == Mode::Interval;
        SweepCall {
            mode: self.mode,
            kmer: self.kmer,
            window: self.window,
            length: self.length,
            range_start: self.range_start,
            range_end: self.range_end,
            query: self.query.clone(),
            hashes: self.items.iter().map(|item| item.hash).collect(),
            starts: self.items.iter().map(|item| item.start).collect(),
            ends: self
                .items
                .iter()
                .filter(|_| interval)
                .map(|item| item.end)
                .collect(),
            identities: self
                .estimates
                .iter()
                .map(|pair| f64::from_bits(pair.identity_bits))
                .collect(),
            uppers: self
                .estimates
                .iter()
                .map(|pair| f64::from_bits(pair.upper_bits))
                .collect(),
            minimum: f64::from_bits(self.minimum_bits),
            room: needs::sweep(self.mode, self.query.len(), self.items.len()),
        }
    }
}
