//! Counts what came up in the outputs: refusals, statuses sent, what the console was told, a session's numbers, and what each call
//! of receive sessions gave.

use reference::receiver::base64;
use std::collections::BTreeMap;

/// Document 01's numbers, with order 4's in the place of 6, and order 6's.
#[rustfmt::skip]
const REFUSALS: [u8; 20] =
    [1, 2, 3, 4, 5, 61, 62, 63, 64, 65, 66, 67, 7, 8, 9, 10, 11, 12, 17, 18];

#[rustfmt::skip]
const TOLD: [&str; 16] = [
    "none", "ignored", "asked", "open", "write", "last", "commit", "withdrawn", "discarded",
    "committed", "status", "naming", "path", "lastpath", "request", "dragdrop",
];

#[rustfmt::skip]
const STATUSES: [&str; 14] = [
    "OK", "STARTED", "PROGRESS", "CANCELED", "EBUSY", "ENOTSUP", "EINVAL", "EPERM", "EIO",
    "ENOENT", "ENOSPC", "EEXIST", "EMFILE", "EFBIG",
];

/// The calls that receive sessions have, and the answers to an ask: their refusals; `written` and `held` where there is none, by
/// whether something was written.
const CALLS: [(&str, &[&str]); 8] = [
    ("l", &["written", "8", "9", "18", "62"]),
    ("g", &["written", "held", "8", "9", "18", "62"]),
    ("h", &["written", "held", "9", "18"]),
    ("p", &["written", "9", "17", "18"]),
    ("z", &["written", "9", "17", "18"]),
    ("u", &["written", "held", "9", "18"]),
    ("k", &["written", "held", "9", "11", "18"]),
    ("e", &["written", "held", "9", "11"]),
];

/// Of order 10's two numbers: which are not zero; or no session.
const NUMBERS: [&str; 5] = ["none", "zeros", "started", "done", "both"];

#[derive(Default)]
pub struct Coverage {
    refusals: BTreeMap<u8, u64>,
    told: BTreeMap<String, u64>,
    statuses: BTreeMap<String, u64>,
    numbers: BTreeMap<String, u64>,
    calls: BTreeMap<String, u64>,
    lines: u64,
}

impl Coverage {
    /// Counts in the output of a script.
    pub fn script(&mut self, output: &[u8]) {
        for line in output.split(|&b| b == b'\n').filter(|line| !line.is_empty()) {
            self.lines += 1;
            let fields: Vec<&[u8]> = line.split(|&b| b == b' ').collect();
            match fields[..] {
                [b"y", ..] => self.numbers(&fields[1..]),
                _ if fields.len() == 8 || fields.len() == 9 => self.answer(&fields),
                _ => {}
            }
        }
    }

    fn numbers(&mut self, fields: &[&[u8]]) {
        let kind = match *fields {
            [b"none"] => "none",
            [b"0", b"0"] => "zeros",
            [_, b"0"] => "started",
            [b"0", _] => "done",
            _ => "both",
        };
        *self.numbers.entry(kind.into()).or_default() += 1;
    }

    fn answer(&mut self, fields: &[&[u8]]) {
        let number = std::str::from_utf8(fields[1]).ok().and_then(|text| text.parse().ok());
        *self.refusals.entry(number.unwrap_or(255)).or_default() += 1;
        let told = fields[3].split(|&b| b == b':').next().unwrap_or_default();
        *self.told.entry(String::from_utf8_lossy(told).into_owned()).or_default() += 1;
        self.call(fields);
        // What an entry calls its status is a file's id.
        if fields[0] != b"l" {
            self.replies(&unhex(fields[4]));
        }
    }

    fn call(&mut self, fields: &[&[u8]]) {
        let letter = String::from_utf8_lossy(fields[0]);
        let outcome = match (fields[1], fields[4]) {
            (b"0", b"-") => "held".into(),
            (b"0", _) => "written".into(),
            (refusal, _) => String::from_utf8_lossy(refusal),
        };
        if CALLS.iter().any(|(call, _)| *call == letter) {
            *self.calls.entry(format!("{letter} {outcome}")).or_default() += 1;
        }
    }

    /// Counts the replies in a run of bytes.
    pub fn replies(&mut self, bytes: &[u8]) {
        for text in bytes.split(|&b| b == 0x1b) {
            let Some(place) = text.windows(4).position(|part| part == b";st=") else {
                continue;
            };
            let value = &text[place + 4..];
            let mut word = vec![0; base64::check(value).unwrap_or(0)];
            base64::decode(value, &mut word);
            *self.statuses.entry(String::from_utf8_lossy(&word).into_owned()).or_default() += 1;
        }
    }

    pub fn join(&mut self, other: Coverage) {
        join(&mut self.refusals, other.refusals);
        join(&mut self.told, other.told);
        join(&mut self.statuses, other.statuses);
        join(&mut self.numbers, other.numbers);
        join(&mut self.calls, other.calls);
        self.lines += other.lines;
    }

    /// What should have come up and did not.
    pub fn missing(&self) -> Vec<String> {
        let refusals = REFUSALS.iter().filter(|no| !self.refusals.contains_key(no));
        let told = TOLD.iter().filter(|kind| !self.told.contains_key(**kind));
        let statuses = STATUSES.iter().filter(|word| !self.statuses.contains_key(**word));
        let numbers = NUMBERS.iter().filter(|kind| !self.numbers.contains_key(**kind));
        let calls = CALLS.iter().flat_map(|(call, all)| all.iter().map(move |of| (call, of)));
        let calls = calls.map(|(call, outcome)| format!("{call} {outcome}"));
        let calls = calls.filter(|call| !self.calls.contains_key(call));
        refusals
            .map(|no| format!("refusal {no}"))
            .chain(told.map(|kind| format!("told {kind}")))
            .chain(statuses.map(|word| format!("status {word}")))
            .chain(numbers.map(|kind| format!("numbers {kind}")))
            .chain(calls.map(|call| format!("call {call}")))
            .collect()
    }

    pub fn print(&self) {
        println!("lines of scripts: {}", self.lines);
        println!("refusals: {}", listed(&self.refusals));
        println!("told: {}", listed(&self.told));
        println!("statuses sent: {}", listed(&self.statuses));
        println!("a session's numbers: {}", listed(&self.numbers));
        println!("calls: {}", listed(&self.calls));
    }
}

pub fn join<K: Ord>(into: &mut BTreeMap<K, u64>, from: BTreeMap<K, u64>) {
    for (key, count) in from {
        *into.entry(key).or_default() += count;
    }
}

pub fn listed<K: std::fmt::Display>(counts: &BTreeMap<K, u64>) -> String {
    let items: Vec<String> = counts.iter().map(|(key, n)| format!("{key} {n}")).collect();
    items.join(", ")
}

pub fn unhex(text: &[u8]) -> Vec<u8> {
    let digit = |b: u8| (b as char).to_digit(16).unwrap_or(0) as u8;
    text.chunks_exact(2).map(|pair| digit(pair[0]) << 4 | digit(pair[1])).collect()
}
