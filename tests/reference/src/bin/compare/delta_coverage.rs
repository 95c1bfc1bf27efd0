//! Counts what came up in the outputs of `delta_script` and `patch`.

use crate::coverage::{join, listed};
use std::collections::BTreeMap;

#[rustfmt::skip]
const LINES: [&str; 30] = [
    "h 0", "h 16", "h 17", "b 0", "b 0 none", "b 16 none", "b 17 none",
    "i block", "i data", "i hash", "i blocks", "i 0", "i 16", "i 17",
    "m 0", "m 9", "m 16", "m 17", "a 0", "a 9", "a 16", "a 17",
    "no hash", "an empty hash", "a hash", "x", "x -", "w", "l", "l none",
];

const PATCHES: [&str; 16] = [
    "output taken",
    "output refused 16",
    "output refused 17",
    "output refused 9",
    "new taken",
    "new refused 16",
    "new refused 17",
    "new refused 9",
    "over taken",
    "over refused 16",
    "over refused 17",
    "over refused 9",
    "show",
    "show 16",
    "show 17",
    "hash",
];

type Counts = BTreeMap<String, u64>;

#[derive(Default)]
pub struct DeltaCoverage {
    /// The lines of scripts, without most of their numbers.
    lines: Counts,
    /// The runs of `patch`: what it was asked for, and the answer.
    patches: Counts,
}

fn count(counts: &mut Counts, key: &str) {
    *counts.entry(key.into()).or_default() += 1;
}

impl DeltaCoverage {
    /// Counts in the output of scripts.
    pub fn script(&mut self, output: &[u8]) {
        for line in String::from_utf8_lossy(output).lines() {
            let words: Vec<&str> = line.split(' ').collect();
            let kind = match words[..] {
                ["m" | "a", _, _, hash, ..] => {
                    let (_, len) = hash.split_once(':').unwrap_or(("", "-"));
                    let kind = match len {
                        "-" => "no hash",
                        "0" => "an empty hash",
                        _ => "a hash",
                    };
                    count(&mut self.lines, kind);
                    words[..2].join(" ")
                }
                ["b", _, "none"] | ["bad", "script"] | ["x", "-"] | ["l", "none"] => line.into(),
                ["h" | "b" | "i", ..] => words[..2].join(" "),
                _ => words[0].into(),
            };
            count(&mut self.lines, &kind);
        }
    }

    /// Counts a run of `patch`.
    pub fn patch(&mut self, kind: &str) {
        count(&mut self.patches, kind);
    }

    pub fn join(&mut self, other: DeltaCoverage) {
        join(&mut self.lines, other.lines);
        join(&mut self.patches, other.patches);
    }

    pub fn missing_in_scripts(&self) -> Vec<String> {
        none(&self.lines, "line", &[&LINES[..], &["bad script"]].concat())
    }

    pub fn missing_in_patches(&self) -> Vec<String> {
        none(&self.patches, "run of patch:", &PATCHES)
    }

    pub fn print_scripts(&self) {
        println!("lines: {}", listed(&self.lines));
    }

    pub fn print_patches(&self) {
        println!("runs of patch: {}", listed(&self.patches));
    }
}

/// What should have come up and did not.
fn none(counts: &Counts, kind: &str, wanted: &[&str]) -> Vec<String> {
    let missing = wanted.iter().filter(|key| !counts.contains_key(**key));
    missing.map(|key| format!("{kind} {key}")).collect()
}
