//! Counts what came up in pairs of scripts: what the session did and saw, what stood between, and how full the table was.

use crate::coverage::{join, listed};
use crate::isolation_acts::{values, Act, Moment};
use crate::isolation_pairs::Pair;
use crate::isolation_plans::is_like;
use crate::isolation_seen::{difference, Script};
use reference::receiver::{Told, SESSIONS};
use reference::script::Op;
use std::collections::BTreeMap;

type Counts = BTreeMap<String, u64>;

#[rustfmt::skip]
const PAIRS: [&str; 5] = [
    "compared", "compared, in another place", "compared, with other texts", "premise fails", "premise fails, lines differ",
];

/// Commands by their actions, and calls by their letters.
#[rustfmt::skip]
const ACTS: [&str; 19] = [
    "Send", "Receive", "File", "Data", "EndData", "Finish", "Cancel", "Status",
    "a", "d", "x", "k", "e", "u", "l", "g", "h", "p", "z",
];

#[rustfmt::skip]
const TOLD: [&str; 15] = [
    "none", "ignored", "asked", "open", "write", "last", "commit", "withdrawn", "discarded",
    "committed", "status", "naming", "path", "lastpath", "request",
];

/// Of texts, then of calls.
#[rustfmt::skip]
const REFUSALS: [u8; 20] =
    [1, 2, 3, 4, 5, 61, 62, 63, 64, 65, 66, 67, 7, 8, 9, 10, 11, 12, 17, 18];

const OWN_REFUSALS: [u8; 6] = [9, 10, 11, 12, 17, 18];

#[derive(Default)]
pub struct IsolationCoverage {
    pairs: Counts,
    acts: Counts,
    told: Counts,
    /// Whether an act had a reply or a frame.
    replies: Counts,
    /// What stood between: calls and commands that were taken, by their letters; a text of drag and drop apart.
    between: Counts,
    refusals: Counts,
    own_refusals: Counts,
    /// The other sessions that were present at an act.
    others: Counts,
    /// Those of them whose ids are the start of the session's, or begin with it.
    likes: Counts,
    /// The pieces in which a command came.
    pieces: Counts,
}

fn count(counts: &mut Counts, key: impl Into<String>) {
    *counts.entry(key.into()).or_default() += 1;
}

impl IsolationCoverage {
    /// Counts a seed, by whether a pair was made of it.
    pub fn made(&mut self, pair: bool) {
        if !pair {
            count(&mut self.pairs, "none made");
        }
    }

    /// Counts a pair by what the program made of it.
    pub fn pair(&mut self, pair: &Pair, outputs: [&[u8]; 2]) {
        if !pair.met {
            let [one, other] = pair.seen(outputs);
            let differs = difference(&one, &other).is_some();
            count(&mut self.pairs, PAIRS[3]);
            if differs {
                count(&mut self.pairs, PAIRS[4]);
            }
            if differs && pair.same_acts() {
                count(&mut self.pairs, "premise fails, acts the same, lines differ");
            }
            return;
        }
        count(&mut self.pairs, PAIRS[0]);
        let places = pair.scripts.each_ref().map(|script| places(script, &pair.id));
        if places[0] != places[1] {
            count(&mut self.pairs, PAIRS[1]);
        }
        if texts(&pair.scripts[0]) != texts(&pair.scripts[1]) {
            count(&mut self.pairs, PAIRS[2]);
        }
        if pair.scripts.iter().any(|script| script.own.len() * 2 + 1 == script.ops.len()) {
            count(&mut self.pairs, "compared, one of them alone");
        }
        for (script, output) in pair.scripts.iter().zip(outputs) {
            self.script(&pair.id, script, output);
        }
    }

    fn script(&mut self, id: &[u8], script: &Script, output: &[u8]) {
        for line in script.seen(id, output).iter().filter(|line| !line.starts_with('y')) {
            let fields: Vec<&str> = line.split(' ').collect();
            let told = fields.get(2).unwrap_or(&"").split(':').next().unwrap_or_default();
            count(&mut self.told, told);
            let replied = fields.last() != Some(&"-");
            count(&mut self.replies, if replied { "written" } else { "nothing" });
        }
        let mut pieces = 0;
        for (op, moment) in script.ops.iter().zip(&script.moments) {
            // Feeds that consumed something, since the latest one that reported something.
            pieces += usize::from(moment.answer.is_some_and(|answer| answer.consumed > 0));
            match &moment.act {
                Some(act) => self.act(id, act, pieces, moment),
                None => self.other(op, moment),
            }
            if moment.reports() {
                pieces = 0;
            }
        }
    }

    fn act(&mut self, id: &[u8], act: &Act, pieces: usize, moment: &Moment) {
        match act {
            Act::Command(text) => {
                let action = values(text).and_then(|values| values.action);
                count(&mut self.acts, action.map_or(String::new(), |action| format!("{action:?}")));
                count(&mut self.pieces, ["1", "2", "more"][pieces.clamp(1, 3) - 1]);
            }
            Act::Call(op) => count(&mut self.acts, (op.letter() as char).to_string()),
        }
        let others = moment.present.iter().filter(|(_, other)| other.bytes() != id);
        count(&mut self.others, others.clone().count().to_string());
        if moment.present.len() == SESSIONS {
            count(&mut self.others, "full");
        }
        if others.clone().any(|(_, other)| is_like(other.bytes(), id)) {
            count(&mut self.likes, "present");
        }
    }

    fn other(&mut self, op: &Op, moment: &Moment) {
        let Some(answer) = moment.answer else {
            return;
        };
        let (counts, key) = match answer.refusal {
            None if answer.told == Told::DragDrop => (&mut self.between, "dragdrop".into()),
            None => (&mut self.between, (op.letter() as char).to_string()),
            Some(refusal) if moment.own_refused => {
                (&mut self.own_refusals, (refusal as u8).to_string())
            }
            Some(refusal) => (&mut self.refusals, (refusal as u8).to_string()),
        };
        count(counts, key);
    }

    pub fn join(&mut self, other: IsolationCoverage) {
        join(&mut self.pairs, other.pairs);
        join(&mut self.acts, other.acts);
        join(&mut self.told, other.told);
        join(&mut self.replies, other.replies);
        join(&mut self.between, other.between);
        join(&mut self.refusals, other.refusals);
        join(&mut self.own_refusals, other.own_refusals);
        join(&mut self.others, other.others);
        join(&mut self.likes, other.likes);
        join(&mut self.pieces, other.pieces);
    }

    /// What should have come up and did not.
    pub fn missing(&self) -> Vec<String> {
        let none = |counts: &Counts, kind: &str, wanted: &[String]| {
            let missing = wanted.iter().filter(|key| !counts.contains_key(*key));
            missing.map(|key| format!("{kind} {key}")).collect::<Vec<String>>()
        };
        let words = |of: &[&str]| of.iter().map(|word| word.to_string()).collect::<Vec<_>>();
        let numbers = |of: &[u8]| of.iter().map(u8::to_string).collect::<Vec<_>>();
        [
            none(&self.pairs, "pairs", &words(&PAIRS)),
            none(&self.acts, "an act", &words(&ACTS)),
            none(&self.told, "told", &words(&TOLD)),
            none(&self.replies, "replied", &words(&["written", "nothing"])),
            none(&self.between, "between", &words(&ACTS[8..])),
            none(&self.between, "between", &words(&["dragdrop"])),
            none(&self.refusals, "between, refused with", &numbers(&REFUSALS)),
            none(&self.own_refusals, "its own call, refused with", &numbers(&OWN_REFUSALS)),
            none(&self.others, "others", &words(&["0", "1", "2", "3", "full"])),
            none(&self.likes, "a like id", &words(&["present"])),
            none(&self.pieces, "pieces", &words(&["1", "2", "more"])),
        ]
        .concat()
    }

    pub fn print(&self) {
        println!("pairs: {}", listed(&self.pairs));
        println!("acts of the session: {}", listed(&self.acts));
        println!("told to it: {}", listed(&self.told));
        println!("replies and frames of it: {}", listed(&self.replies));
        println!("taken between: {}", listed(&self.between));
        println!("refused between: {}", listed(&self.refusals));
        println!(
            "its own calls, and feeds of its commands, refused: {}",
            listed(&self.own_refusals)
        );
        println!("other sessions at an act: {}", listed(&self.others));
        println!("ids that are like its own at an act: {}", listed(&self.likes));
        println!("pieces of its commands: {}", listed(&self.pieces));
    }
}

/// The places that the session had at its acts.
fn places(script: &Script, id: &[u8]) -> Vec<Option<usize>> {
    script.acts().map(|(at, _)| script.moments[at].place(id)).collect()
}

/// The texts of its commands.
fn texts(script: &Script) -> Vec<&[u8]> {
    let texts = script.acts().filter_map(|(_, act)| match act {
        Act::Command(text) => Some(&text[..]),
        Act::Call(_) => None,
    });
    texts.collect()
}
