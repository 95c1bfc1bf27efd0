//! Counts what came up in the outputs of `windows_script` and `compare_windows`: verdicts, refusals, rooms and lengths.

use crate::coverage::{join, listed};
use crate::dragging::{ends, ENDS};
use crate::windows_cases::parted;
use reference::windows::script::parts;
use reference::windows::{rows, LONGEST, ROW};
use std::cmp::Ordering;
use std::collections::BTreeMap;

/// Verdicts; one that is different also by whether its offset is 0.
const VERDICTS: [&str; 5] = ["1", "2", "3", "4 at 0", "4 later"];

const ANSWERS: [&str; 4] = ["0", "0 without rows", "9", "bad"];

const ROOMS: [&str; 3] = ["short", "exact", "more"];

const LINES: [&str; 6] =
    ["same", "different at", "only in the first", "only in the second", "summary", "refused 17"];

const LENGTHS: [&str; 4] = ["neither", "first", "second", "both"];

type Counts = BTreeMap<String, u64>;

#[derive(Default)]
pub struct WindowCoverage {
    verdicts: Counts,
    answers: Counts,
    /// The list's room, by what is needed.
    rooms: Counts,
    /// How the texts of drag and drop in scripts end.
    dragged: Counts,
    /// The lines of the tool, without their numbers and ids.
    tool: Counts,
    /// Which of the tool's recordings was too long.
    lengths: Counts,
    /// Recordings beside themselves or their mended form.
    alike: Counts,
}

fn count(counts: &mut Counts, key: &str) {
    *counts.entry(key.into()).or_default() += 1;
}

impl WindowCoverage {
    /// Counts in the output of a script.
    pub fn script(&mut self, output: &[u8]) {
        for line in String::from_utf8_lossy(output).lines() {
            match line.split(' ').collect::<Vec<_>>()[..] {
                ["4", offset, _, _, _, _] => {
                    let kind = if offset == "0" { VERDICTS[3] } else { VERDICTS[4] };
                    count(&mut self.verdicts, kind);
                }
                [verdict, _, _, _, _, _] => count(&mut self.verdicts, verdict),
                ["0", "0", _] => count(&mut self.answers, ANSWERS[1]),
                [refusal, ..] => count(&mut self.answers, refusal),
                [] => {}
            }
        }
    }

    /// Counts a script's room, beside what its rows need.
    pub fn room(&mut self, script: &[u8]) {
        let Some((room, first, second)) = parts(script) else {
            return;
        };
        let Ok(rows) = rows(first, second) else {
            return;
        };
        let kind = match room.cmp(&(ROW * rows.len())) {
            Ordering::Less => ROOMS[0],
            Ordering::Equal => ROOMS[1],
            Ordering::Greater => ROOMS[2],
        };
        count(&mut self.rooms, kind);
        [ends(first), ends(second)].concat().iter().for_each(|end| count(&mut self.dragged, end));
    }

    /// Counts in what the tool wrote.
    pub fn tool(&mut self, output: &[u8]) {
        for line in String::from_utf8_lossy(output).lines() {
            let kind = match line.split('\t').collect::<Vec<_>>()[..] {
                [_, _, verdict] => {
                    verdict.trim_end_matches(|c: char| c.is_ascii_digit()).trim_end()
                }
                _ if line.starts_with("refused") => line,
                _ => "summary",
            };
            count(&mut self.tool, kind);
        }
    }

    /// Counts which recording of a pair for the tool is too long.
    pub fn lengths(&mut self, pair: &[u8]) {
        let Some((first, second)) = parted(pair) else {
            return;
        };
        let place = usize::from(first.len() > LONGEST) + 2 * usize::from(second.len() > LONGEST);
        count(&mut self.lengths, LENGTHS[place]);
    }

    /// Counts a recording beside itself or its mended form.
    pub fn alike(&mut self, pair: &[u8]) {
        let same = parted(pair).is_some_and(|(first, second)| first == second);
        count(&mut self.alike, if same { "itself" } else { "mended" });
    }

    pub fn join(&mut self, other: WindowCoverage) {
        join(&mut self.verdicts, other.verdicts);
        join(&mut self.answers, other.answers);
        join(&mut self.rooms, other.rooms);
        join(&mut self.dragged, other.dragged);
        join(&mut self.tool, other.tool);
        join(&mut self.lengths, other.lengths);
        join(&mut self.alike, other.alike);
    }

    /// What should have come up and did not.
    pub fn missing(&self) -> Vec<String> {
        let none = |counts: &Counts, kind: &str, wanted: &[&str]| {
            let missing = wanted.iter().filter(|key| !counts.contains_key(**key));
            missing.map(|key| format!("{kind} {key}")).collect::<Vec<String>>()
        };
        [
            none(&self.verdicts, "verdict", &VERDICTS),
            none(&self.answers, "answer", &ANSWERS),
            none(&self.rooms, "room", &ROOMS),
            none(&self.dragged, "a text of drag and drop", &ENDS),
            none(&self.tool, "line of compare_windows", &LINES),
            none(&self.lengths, "too long", &LENGTHS),
            none(&self.alike, "beside", &["itself", "mended"]),
        ]
        .concat()
    }

    pub fn print(&self) {
        println!("rows, by verdict: {}", listed(&self.verdicts));
        println!("answers: {}", listed(&self.answers));
        println!("rooms of the list: {}", listed(&self.rooms));
        println!("texts of drag and drop in scripts: {}", listed(&self.dragged));
        println!("lines of compare_windows: {}", listed(&self.tool));
        println!("too long: {}", listed(&self.lengths));
        println!("beside itself or its mended form: {}", listed(&self.alike));
    }
}
