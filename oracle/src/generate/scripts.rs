//! Scripts of inserts and deletes.

use super::{alphabet, some_of, spare, Size};
use crate::call::{ScriptCall, ScriptRoom};
use crate::model::needs;
use crate::model::refusals::{MOST_COORDS, MOST_QUERY, MOST_STEPS};
use crate::random::Random;

struct Shape {
    coords: usize,
    query: usize,
    steps: usize,
}

pub fn script(random: &mut Random, size: Size) -> ScriptCall {
    let shape = shape(random, size);
    let coords = alphabet(random, shape.coords as u64);
    let query = some_of(random, &coords, shape.query);
    let indexes = indexes(random, coords.len(), shape.steps);
    // Deletes as often as inserts keep the union sparse; more inserts fill it.
    let inserts_in_ten = random.pick(&[5, 5, 7, 9]);
    let kinds = (0..indexes.len())
        .map(|_| u8::from(random.below(10) < inserts_in_ten))
        .collect();
    ScriptCall {
        room: room(random, coords.len(), indexes.len()),
        query,
        coords,
        indexes,
        kinds,
    }
}

fn shape(random: &mut Random, size: Size) -> Shape {
    let (coords, query, steps) = match size {
        Size::Small => (random.within(1, 8), random.within(1, 4), random.below(17)),
        // A wide and sparse union: the nearest set bit lies words, or summary words, away.
        Size::Medium if random.once_in(2) => {
            let coords = random.within(4_097, 16_000);
            (coords, random.within(1, 4), random.below(60))
        }
        Size::Medium => {
            let coords = random.pick(&[70, 300, 4_200]);
            let coords = random.within(1, coords);
            (coords, random.within(1, 64), random.below(300))
        }
        Size::Limit => return limit_shape(random),
    };
    Shape {
        coords: coords as usize,
        query: query as usize,
        steps: steps as usize,
    }
}

/// Looking afresh after each step costs as many coordinates as there are, so both are at their limit only now and then.
fn limit_shape(random: &mut Random) -> Shape {
    let (coords, steps) = match random.below(8) {
        0 => (MOST_COORDS, MOST_STEPS),
        1..=4 => (MOST_COORDS, 1_000),
        _ => (256, MOST_STEPS),
    };
    let most = MOST_QUERY.min(coords);
    Shape {
        coords,
        query: random.pick(&[1, 2, most / 2, most]),
        steps,
    }
}

/// Step indexes all over, or crowded on a few coordinates so that counts rise and fall.
fn indexes(random: &mut Random, coords: usize, steps: usize) -> Vec<u32> {
    let crowd = random.once_in(2);
    let few: Vec<u64> = (0..8).map(|_| random.below(coords as u64)).collect();
    let index = |_| match crowd && !random.once_in(4) {
        true => random.pick(&few) as u32,
        false => random.below(coords as u64) as u32,
    };
    (0..steps).map(index).collect()
}

fn room(random: &mut Random, coords: usize, steps: usize) -> ScriptRoom {
    let need = needs::script(coords, steps);
    ScriptRoom {
        counts: need.counts + spare(random),
        words: need.words + spare(random),
        summary: need.summary + spare(random),
        pivots: need.pivots + spare(random),
        shared: need.shared + spare(random),
    }
}
