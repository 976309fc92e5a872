//! Example A of the papers: a script of inserts and deletes, printed as pivot and shared count after each step.

use kelonbaro::{script, Refusal, Script, ScriptNeeds, ScriptWork};

fn main() -> Result<(), Refusal> {
    let call = Script {
        query: &[20, 40],
        coords: &[10, 20, 30, 40, 50],
        indexes: &[1, 0, 3, 0, 0, 0, 2, 4, 1, 2],
        kinds: &[1, 1, 1, 1, 0, 0, 0, 1, 0, 1],
    };
    let needs = ScriptNeeds::of(call.coords.len(), call.indexes.len());
    let mut work = ScriptWork {
        counts: &mut vec![0; needs.counts],
        words: &mut vec![0; needs.words],
        summary: &mut vec![0; needs.summary],
    };
    let (mut pivots, mut shared) = (vec![0; needs.outputs], vec![0; needs.outputs]);
    let last = script(call, &mut work, &mut pivots, &mut shared)?;
    for (step, (pivot, shared)) in pivots.iter().zip(&shared).enumerate() {
        let kind = ["delete", "insert"][call.kinds[step] as usize];
        println!("{kind} {}: {pivot}/{shared}", call.indexes[step]);
    }
    println!("last {}/{}", last.pivot, last.shared);
    Ok(())
}
