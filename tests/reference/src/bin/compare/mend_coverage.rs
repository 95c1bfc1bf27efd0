//! Counts what came up in the outputs of `mend_script` and `mend`: why stretches were dropped, refusals, and the rooms that were lent.

use crate::coverage::{join, listed};
use crate::dragging::{ends, ENDS};
use crate::programs::apart;
use reference::mend::script::parts;
use reference::mend::{mended, ROW};
use std::cmp::Ordering;
use std::collections::BTreeMap;

/// Why a stretch is dropped: 0 is outside.
const WHYS: [u8; 15] = [0, 1, 2, 3, 4, 5, 61, 62, 63, 64, 65, 66, 67, 7, 8];

const ANSWERS: [&str; 3] = ["0", "9", "bad"];

const ROOMS: [&str; 3] = ["short", "exact", "more"];

#[derive(Default)]
pub struct MendCoverage {
    rows: BTreeMap<String, u64>,
    answers: BTreeMap<String, u64>,
    /// The output's room and the list's, by what is needed.
    rooms: BTreeMap<String, u64>,
    /// How the texts of drag and drop in scripts end.
    dragged: BTreeMap<String, u64>,
    /// The lines of the tool, without their numbers.
    tool: BTreeMap<String, u64>,
    /// What the tool kept, mended again: by whether something had been dropped.
    again: BTreeMap<String, u64>,
}

fn count(counts: &mut BTreeMap<String, u64>, key: impl Into<String>) {
    *counts.entry(key.into()).or_default() += 1;
}

impl MendCoverage {
    /// Counts in the output of a script.
    pub fn script(&mut self, output: &[u8]) {
        for line in String::from_utf8_lossy(output).lines() {
            match line.split(' ').collect::<Vec<_>>()[..] {
                [_, _, why] => count(&mut self.rows, why),
                [refusal, ..] => count(&mut self.answers, refusal),
                [] => {}
            }
        }
    }

    /// Counts a script's rooms, beside what its recording needs.
    pub fn rooms(&mut self, script: &[u8]) {
        let Some((output, list, recording)) = parts(script) else {
            return;
        };
        let Ok(mended) = mended(recording) else {
            return;
        };
        let kind = |room: usize, needed| match room.cmp(&needed) {
            Ordering::Less => ROOMS[0],
            Ordering::Equal => ROOMS[1],
            Ordering::Greater => ROOMS[2],
        };
        let kinds = [kind(output, mended.kept.len()), kind(list, ROW * mended.rows.len())];
        count(&mut self.rooms, kinds.join("/"));
        ends(recording).into_iter().for_each(|end| count(&mut self.dragged, end));
    }

    /// Counts in what the tool wrote.
    pub fn tool(&mut self, output: &[u8]) {
        let (_, said) = apart(output);
        for line in String::from_utf8_lossy(said).lines() {
            match line.split(' ').collect::<Vec<_>>()[..] {
                ["kept", ..] => count(&mut self.tool, "kept"),
                ["refused", ..] => count(&mut self.tool, line),
                [_, _, "outside"] => count(&mut self.tool, "0"),
                [_, _, "refusal", why] => count(&mut self.tool, why),
                _ => count(&mut self.tool, "other"),
            }
        }
    }

    /// Counts that what the tool kept was mended again.
    pub fn again(&mut self, dropped: bool) {
        count(&mut self.again, if dropped { "after a loss" } else { "after none" });
    }

    pub fn join(&mut self, other: MendCoverage) {
        join(&mut self.rows, other.rows);
        join(&mut self.answers, other.answers);
        join(&mut self.rooms, other.rooms);
        join(&mut self.dragged, other.dragged);
        join(&mut self.tool, other.tool);
        join(&mut self.again, other.again);
    }

    /// What should have come up and did not.
    pub fn missing(&self) -> Vec<String> {
        let whys = || WHYS.iter().map(u8::to_string);
        let rooms = ROOMS.iter().flat_map(|a| ROOMS.iter().map(move |b| format!("{a}/{b}")));
        let answers = ANSWERS.iter().map(|answer| answer.to_string());
        let lines = whys().chain(["kept", "refused 17"].map(String::from));
        let none = |counts: &BTreeMap<String, u64>, kind: &str, wanted: Vec<String>| {
            let missing = wanted.into_iter().filter(|key| !counts.contains_key(key));
            missing.map(|key| format!("{kind} {key}")).collect::<Vec<String>>()
        };
        [
            none(&self.rows, "row", whys().collect()),
            none(&self.answers, "answer", answers.collect()),
            none(&self.rooms, "rooms", rooms.collect()),
            none(&self.dragged, "a text of drag and drop", ENDS.map(String::from).into()),
            none(&self.tool, "line of mend", lines.collect()),
            none(&self.again, "mended again", vec!["after a loss".into()]),
        ]
        .concat()
    }

    pub fn print(&self) {
        println!("rows, by why: {}", listed(&self.rows));
        println!("answers: {}", listed(&self.answers));
        println!("rooms of output/list: {}", listed(&self.rooms));
        println!("texts of drag and drop in scripts: {}", listed(&self.dragged));
        println!("lines of mend: {}", listed(&self.tool));
        println!("mended again: {}", listed(&self.again));
    }
}
