//! Scripts of signatures, old files and deltas, and how they are judged by `delta_script`.

use crate::delta_inputs::{input, Input};
use crate::judge::{Case, Scripted};
use crate::programs::DELTA_SCRIPT;
use crate::rng::Rng;
use reference::delta::layout::signature;
use reference::delta::script::{self, encode, Op, BUFFER};
use reference::delta::{measure, Measured, LONGEST};
use reference::script::Ops;

pub static DELTAS: Scripted = Scripted {
    name: "delta_script",
    path: || DELTA_SCRIPT,
    run: script::run,
    cut: |input| {
        let ops: Result<Vec<Op>, ()> = Ops::new(input).collect();
        Some(ops.ok()?.into_iter().map(|op| encode(&[op])).collect())
    },
    count: |tally, output| tally.deltas.script(output),
};

/// So many bytes of a result are looked at, most often.
const LOOKED_AT: usize = 3_000;

pub fn case(seed: u64) -> Case {
    let rng = &mut Rng::new(seed ^ 0x6465_6c74);
    let mut ops = Vec::new();
    for _ in 0..rng.within(1, 2) {
        ops.push(Op::Anew);
        let input = input(rng);
        ops.extend(input.ops());
        ops.extend(calls(rng, &input));
    }
    Case { name: format!("delta-{seed}"), input: encode(&ops) }
}

/// Every call, those of the output in rooms about what is needed.
fn calls(rng: &mut Rng, input: &Input) -> Vec<Op> {
    let [sig, old, delta] = input.joined();
    let blocks = signature(&sig).map_or(0, |read| read.blocks) as u16;
    let mut ops = vec![Op::Signature];
    ops.extend([0, blocks.saturating_sub(1), blocks, rng.number() as u16].map(Op::Entry));
    if delta.len() < LOOKED_AT || delta.len() > LONGEST || rng.chance(20) {
        ops.push(Op::Operations);
    }
    ops.push(Op::Measure);
    let len = measure(&sig, &old, &delta).map_or(0, |Measured { len, .. }| len);
    for _ in 0..rng.within(1, 3) {
        ops.push(Op::Lend(room(rng, len)));
        ops.push(Op::Apply);
        if len < LOOKED_AT || rng.chance(5) {
            ops.push(Op::Result);
        }
    }
    for _ in 0..rng.below(4) {
        ops.extend(sums(rng, old.len()));
    }
    ops
}

fn room(rng: &mut Rng, needed: usize) -> u32 {
    let room = match rng.weighted(&[30, 15, 15, 25, 5, 5, 5]) {
        0 => needed,
        1 => needed.saturating_sub(1),
        2 => needed + 1,
        3 => BUFFER,
        4 => 0,
        5 => rng.below(needed + 1),
        _ => *rng.pick(&[65_536, BUFFER - 1, BUFFER + 1, u32::MAX as usize]),
    };
    room as u32
}

/// A window of the old file and the same rolled on; some pass the end.
fn sums(rng: &mut Rng, old: usize) -> Vec<Op> {
    let start = rng.below(old + 2);
    let left = old.saturating_sub(start);
    let len = match rng.weighted(&[60, 15, 10, 10, 5]) {
        0 => rng.below(left + 1),
        1 => left,
        2 => left + 1,
        3 => 0,
        _ => *rng.pick(&[u32::MAX as usize, 65_536, 1 << 31]),
    };
    let behind = left.saturating_sub(len);
    let times = match rng.weighted(&[50, 20, 15, 10, 5]) {
        0 => rng.below(behind.min(500) + 1),
        1 => behind.min(2_000),
        2 => 1,
        3 => behind + 1,
        _ => u32::MAX as usize,
    };
    let (start, len, times) = (start as u32, len as u32, times as u32);
    vec![Op::Sum { start, len }, Op::Roll { start, len, times }]
}

#[cfg(test)]
mod tests {
    use super::*;
    use crate::delta_coverage::DeltaCoverage;

    /// Without the special cases.
    #[test]
    fn everything_comes_up() {
        let mut coverage = DeltaCoverage::default();
        (0..250).for_each(|seed| coverage.script(&DELTAS.expected(&case(seed).input)));
        coverage.script(b"bad script\n");
        assert_eq!(coverage.missing_in_scripts(), Vec::<String>::new());
    }

    #[test]
    fn the_scripts_are_scripts() {
        for seed in 0..1_000 {
            let Case { input, .. } = case(seed);
            assert!(input.len() <= 65_536, "{seed}: {}", input.len());
            let bad = seed < 100 && DELTAS.expected(&input).ends_with(b"bad script\n");
            assert!(!bad, "{seed}");
        }
    }
}
