//! A job written as fields: the reader's other side, for drawn jobs.

use super::draw::index;
use crate::call::Mode;
use crate::model::job::{
    Item, Job, Pair, END, ESTIMATES, ITEMS, MINIMUM, MODE, QUERY, SETTINGS, VERSION,
};
use crate::random::Random;

/// The fields of a job, each with its tag and length.
pub type Fields = Vec<Vec<u8>>;

pub fn field(tag: u8, data: &[u8]) -> Vec<u8> {
    let length = u16::try_from(data.len()).expect("a field holds at most 65,535 bytes");
    [&[tag], &length.to_le_bytes()[..], data].concat()
}

/// Everything before the items; 04 stands unless it says 0.0.
fn front(job: &Job) -> Fields {
    let Job {
        kmer,
        window,
        length,
        range_start,
        range_end,
        ..
    } = *job;
    let settings = [kmer, window, length, range_start, range_end];
    let query: Vec<u8> = job
        .query
        .iter()
        .flat_map(|hash| hash.to_le_bytes())
        .collect();
    let mut fields = vec![
        field(VERSION, &[1]),
        field(MODE, &[u8::from(job.mode == Mode::Interval)]),
        field(SETTINGS, &settings.map(u32::to_le_bytes).concat()),
    ];
    if job.minimum_bits != 0 {
        fields.push(field(MINIMUM, &job.minimum_bits.to_le_bytes()));
    }
    fields.push(field(QUERY, &query));
    fields
}

fn items_field(mode: Mode, items: &[Item]) -> Vec<u8> {
    let unit = |item: &Item| {
        let mut unit = item.hash.to_le_bytes().to_vec();
        unit.extend(item.start.to_le_bytes());
        if mode == Mode::Interval {
            unit.extend(item.end.to_le_bytes());
        }
        unit
    };
    field(ITEMS, &items.iter().flat_map(unit).collect::<Vec<_>>())
}

fn estimates_field(estimates: &[Pair]) -> Vec<u8> {
    let words = estimates
        .iter()
        .flat_map(|pair| [pair.identity_bits, pair.upper_bits]);
    field(
        ESTIMATES,
        &words.flat_map(u64::to_le_bytes).collect::<Vec<_>>(),
    )
}

/// One field of each kind.
pub fn whole(job: &Job) -> Fields {
    let mut fields = front(job);
    fields.push(items_field(job.mode, &job.items));
    fields.push(estimates_field(&job.estimates));
    fields.push(field(END, &[]));
    fields
}

/// Items and estimates in one field or in several, which may be empty.
pub fn in_pieces(random: &mut Random, job: &Job) -> Fields {
    let mut fields = front(job);
    for piece in pieces(random, &job.items) {
        fields.push(items_field(job.mode, piece));
    }
    for piece in pieces(random, &job.estimates) {
        fields.push(estimates_field(piece));
    }
    fields.push(field(END, &[]));
    fields
}

fn pieces<'a, T>(random: &mut Random, list: &'a [T]) -> Vec<&'a [T]> {
    let mut pieces = Vec::new();
    let mut rest = list;
    while random.once_in(2) {
        let (piece, after) = rest.split_at(index(random, rest.len() + 1));
        pieces.push(piece);
        rest = after;
    }
    pieces.push(rest);
    pieces
}
