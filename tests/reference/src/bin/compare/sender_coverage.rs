//! Counts what came up in the outputs of `drive_sender`: the refusals of each call, what was told, the stages.

use crate::coverage::{join, listed};
use std::collections::BTreeMap;

/// Each call's letter with the refusals that it can give; a piece and a last piece are one.
const REFUSALS: [(&str, &[u8]); 6] = [
    ("s", &[7, 8, 9, 18, 62]),
    ("f", &[8, 9, 17, 18, 62, 64]),
    ("p", &[9, 17, 18]),
    ("l", &[9, 17, 18]),
    ("e", &[9, 18]),
    ("h", &[1, 2, 3, 4, 5, 7, 8, 9, 61, 62, 63, 64, 65, 66, 67]),
];

/// Also that a text was shown that starts `72;`.
#[rustfmt::skip]
const TOLD: [&str; 8] = [
    "none", "ignored", "noted", "allowed", "differs", "stopped-file", "stopped-session", "dragdrop",
];

/// `72;` in hex.
const DRAG_DROP: &str = "37323b";

/// The letters of STATE: the session's, and a file's with the session's before it.
const STAGES: [&str; 5] = ["f", "w", "o", "e", "x"];
#[rustfmt::skip]
const FILE_STAGES: [&str; 11] = [
    "o,s", "o,e", "o,c", "o,x", "e,e", "e,c", "e,x", "x,s", "x,e", "x,c", "x,x",
];

#[derive(Default)]
pub struct SenderCoverage {
    /// A call's letter and its refusal, 0 for none.
    refusals: BTreeMap<String, u64>,
    told: BTreeMap<String, u64>,
    stages: BTreeMap<String, u64>,
    lines: u64,
}

fn count(counts: &mut BTreeMap<String, u64>, key: &str) {
    *counts.entry(key.into()).or_default() += 1;
}

impl SenderCoverage {
    /// Counts in the output of a script.
    pub fn script(&mut self, output: &[u8]) {
        for line in String::from_utf8_lossy(output).lines() {
            self.lines += 1;
            let fields: Vec<&str> = line.split(' ').collect();
            if let [call, refusal, _, told, _, _, _, _, state] = fields[..] {
                count(&mut self.refusals, &format!("{call} {refusal}"));
                count(&mut self.told, kind(told));
                self.state(state);
            }
            if fields[0] == "t" && fields.get(1).is_some_and(|text| text.starts_with(DRAG_DROP)) {
                count(&mut self.told, "dragdrop");
            }
        }
    }

    fn state(&mut self, state: &str) {
        let mut parts = state.split(',');
        let session = parts.next().unwrap_or_default();
        count(&mut self.stages, session);
        for letter in parts.filter_map(|file| file.get(..1)) {
            count(&mut self.stages, &format!("{session},{letter}"));
        }
    }

    pub fn join(&mut self, other: SenderCoverage) {
        join(&mut self.refusals, other.refusals);
        join(&mut self.told, other.told);
        join(&mut self.stages, other.stages);
        self.lines += other.lines;
    }

    /// What should have come up and did not.
    pub fn missing(&self) -> Vec<String> {
        let pairs = REFUSALS.iter().flat_map(|(call, all)| all.iter().map(move |no| (call, no)));
        let refusals = pairs.map(|(call, no)| format!("{call} {no}"));
        let refusals = refusals.filter(|pair| !self.refusals.contains_key(pair));
        let told = TOLD.iter().filter(|kind| !self.told.contains_key(**kind));
        let stages = STAGES.iter().chain(&FILE_STAGES);
        let stages = stages.filter(|stage| !self.stages.contains_key(**stage));
        refusals
            .map(|pair| format!("refusal {pair}"))
            .chain(told.map(|kind| format!("told {kind}")))
            .chain(stages.map(|stage| format!("state {stage}")))
            .collect()
    }

    pub fn print(&self) {
        println!("lines of scripts: {}", self.lines);
        println!("calls and refusals: {}", listed(&self.refusals));
        println!("told: {}", listed(&self.told));
        println!("states: {}", listed(&self.stages));
    }
}

/// The kind of what was told: a stopped file has three numbers, a stopped session two.
fn kind(told: &str) -> &str {
    match told.split(':').collect::<Vec<_>>()[..] {
        ["stopped", _, _, _] => "stopped-file",
        ["stopped", ..] => "stopped-session",
        [word, ..] => word,
        [] => "",
    }
}
