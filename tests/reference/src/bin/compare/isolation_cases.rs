//! Order 14: judges pairs of scripts. Both outputs must be those of the reference, and what the session sees must be the same in both.

use crate::isolation_acts::all_met;
use crate::isolation_pairs::{pair, Pair};
use crate::isolation_seen::{difference, Script};
use crate::judge::{keep_outputs, Case, Tally, RECEIVER};
use crate::programs;
use crate::shrink::shrink;
use reference::console::LONGEST_SCRIPT;
use reference::script::encode;
use std::path::Path;

/// The kinds of the two scripts, as `one` and kept files call them.
pub const KINDS: [&str; 2] = ["isolation-first", "isolation-second"];

impl Pair {
    pub fn cases(&self) -> [Case; 2] {
        [0, 1].map(|i| Case {
            name: format!("{}-{}", KINDS[i], self.name),
            input: encode(&self.scripts[i].ops),
        })
    }

    /// What the session sees in two outputs.
    pub fn seen(&self, outputs: [&[u8]; 2]) -> [Vec<String>; 2] {
        [0, 1].map(|i| self.scripts[i].seen(&self.id, outputs[i]))
    }

    /// What the session sees in one output and not in the other, if the premise holds.
    pub fn leak(&self, outputs: [&[u8]; 2]) -> Option<String> {
        let [one, other] = self.met.then(|| self.seen(outputs))?;
        let difference = difference(&one, &other)?;
        Some(format!("isolation-{}, {} sees {difference}", self.name, self.id.escape_ascii()))
    }
}

/// Judges the pairs of these seeds.
pub fn judge(tally: &mut Tally, seeds: impl Iterator<Item = u64>) {
    let pairs = seeds.filter_map(|seed| {
        let pair = pair(seed);
        tally.isolation.made(pair.is_some());
        pair
    });
    let pairs: Vec<Pair> = pairs.collect();
    judge_pairs(tally, &pairs);
}

pub fn judge_pairs(tally: &mut Tally, pairs: &[Pair]) {
    let cases = pairs.iter().flat_map(Pair::cases).collect();
    let outputs = tally.outputs(&RECEIVER, cases);
    for (pair, outputs) in pairs.iter().zip(outputs.chunks(2)) {
        let outputs = [&outputs[0][..], &outputs[1]];
        tally.isolation.pair(pair, outputs);
        if let Some(leak) = pair.leak(outputs) {
            tally.differ += 1;
            println!("differs: {leak}");
            keep(pair);
        }
    }
}

/// What the program writes for both scripts.
fn played(pair: &Pair) -> [Vec<u8>; 2] {
    let program = Path::new((RECEIVER.path)());
    pair.cases().map(|case| programs::run(program, &case.input, LONGEST_SCRIPT).output)
}

/// Keeps a pair that leaks, also with what does not matter taken out.
fn keep(pair: &Pair) {
    let leaks = |pair: &Pair| {
        let [one, other] = played(pair);
        pair.leak([&one, &other]).is_some()
    };
    if !keep_outputs(&pair.cases(), &played(pair)) {
        return;
    }
    let small = pair.smaller(leaks);
    keep_outputs(&small.cases(), &played(&small));
}

impl Pair {
    /// The pair without what is not the session's, as long as `leaks` holds of what is left.
    fn smaller(&self, leaks: impl Fn(&Pair) -> bool) -> Pair {
        let places = [0, 1].map(|i| (0..self.scripts[i].ops.len()).map(move |at| (i, at)));
        let others = places.into_iter().flatten().filter(|(i, at)| !self.scripts[*i].is_own(*at));
        let kept = shrink(others.collect(), |kept: &[(usize, usize)]| {
            let pair = self.with(kept);
            pair.met && self.has_acts_of(&pair) && leaks(&pair)
        });
        self.with(&kept)
    }

    /// The pair with what is the session's and these operations, each by its script and its place there.
    fn with(&self, kept: &[(usize, usize)]) -> Pair {
        let scripts = [0, 1].map(|i| {
            let ops = self.scripts[i].ops.iter().enumerate();
            let ops = ops.filter(|(at, _)| self.scripts[i].is_own(*at) || kept.contains(&(i, *at)));
            Script::new(&self.id, ops.map(|(_, op)| op.clone()).collect())
        });
        let met = scripts.iter().all(|script| all_met(&script.moments, &self.id));
        Pair { name: format!("{}-pair", self.name), id: self.id.clone(), scripts, met }
    }

    /// Whether the other pair has the same acts as this one.
    fn has_acts_of(&self, other: &Pair) -> bool {
        let acts = || self.scripts[0].acts().map(|(_, act)| act);
        other.scripts.iter().all(|script| script.acts().map(|(_, act)| act).eq(acts()))
    }
}

/// One script of a seed's pair.
pub fn script_case(seed: u64, place: usize) -> Option<Case> {
    pair(seed)?.cases().into_iter().nth(place)
}

/// Parts the output of scripts that were run one after another.
pub fn parted<'o>(scripts: &[&Script], output: &'o [u8]) -> Vec<&'o [u8]> {
    let mut rest = output;
    let part = |script: &&Script| {
        let ends = rest.iter().enumerate().filter(|(_, &b)| b == b'\n').map(|(at, _)| at + 1);
        let end = match script.lines() {
            0 => 0,
            lines => ends.into_iter().nth(lines - 1).unwrap_or(rest.len()),
        };
        let (part, behind) = rest.split_at(end);
        rest = behind;
        part
    };
    scripts.iter().map(part).collect()
}

#[cfg(test)]
mod tests {
    use super::*;
    use crate::isolation_special;
    use reference::script::Op;

    /// The reference keeps sessions apart, and both kinds of pairs come.
    #[test]
    fn the_reference_isolates() {
        let pairs: Vec<Pair> = (0..40).filter_map(pair).collect();
        assert!(pairs.len() > 38);
        let mut unmet = 0;
        for pair in &pairs {
            let outputs = pair.cases().map(|case| RECEIVER.expected(&case.input));
            assert_eq!(pair.leak([&outputs[0], &outputs[1]]), None);
            unmet += usize::from(!pair.met);
        }
        assert!((1..15).contains(&unmet), "{unmet}");
    }

    /// A drop that others make stands for what leaks.
    #[test]
    fn only_what_matters_is_left_of_a_pair() {
        let pair = isolation_special::pairs().remove(16);
        let drops = |pair: &Pair| pair.scripts[0].ops.contains(&Op::Drop(b"c".to_vec()));
        assert!(drops(&pair));
        let small = pair.smaller(drops);
        assert!(drops(&small) && pair.has_acts_of(&small) && small.met);
        // The acts, a look behind each, and what drops; the session that it drops is not needed here.
        let own = 2 * small.scripts[0].own.len();
        assert_eq!(small.scripts.each_ref().map(|script| script.ops.len()), [own + 1, own]);
    }

    #[test]
    fn outputs_are_parted_by_their_lines() {
        let pair = pair(3).unwrap();
        let scripts = [&pair.scripts[0], &pair.scripts[1]];
        let outputs = pair.cases().map(|case| RECEIVER.expected(&case.input));
        assert_eq!(parted(&scripts, &outputs.concat()), outputs);
    }
}
