//! Runs a case on both sides, counts, and keeps the cases that differ.

use crate::coverage::Coverage;
use crate::delta_coverage::DeltaCoverage;
use crate::isolation_coverage::IsolationCoverage;
use crate::mend_coverage::MendCoverage;
use crate::programs::{self, Outcome, DRIVE_SENDER, REPLAY};
use crate::sender_coverage::SenderCoverage;
use crate::shrink::shrink;
use crate::windows_coverage::WindowCoverage;
use reference::console::{self, LONGEST_SCRIPT};
use reference::replay::Replay;
use reference::script::{self, Ops};
use reference::sender;
use std::fs;
use std::path::Path;
use std::sync::atomic::{AtomicUsize, Ordering};

pub const KEEP_IN: &str = "target/reference/differ";
/// At most so many differing cases are kept.
const MOST_KEPT: usize = 8;

static KEPT: AtomicUsize = AtomicUsize::new(0);
/// The same for pairs that do not agree with each other.
static KEPT_PAIRS: AtomicUsize = AtomicUsize::new(0);

/// A script or recording with a name that says how it was made.
pub struct Case {
    pub name: String,
    pub input: Vec<u8>,
}

/// A program that runs scripts, and what stands for it here.
pub struct Scripted {
    pub name: &'static str,
    pub path: fn() -> &'static str,
    pub run: fn(&[u8], &mut Vec<u8>),
    /// The operations of a proper script, each by its bytes.
    pub cut: fn(&[u8]) -> Option<Vec<Vec<u8>>>,
    /// Counts what came up in an output.
    pub count: fn(&mut Tally, &[u8]),
}

/// A program that takes a recording, and what stands for it here.
pub struct Taker {
    pub name: &'static str,
    pub path: &'static str,
    pub run: fn(&Path, &[u8], usize) -> Outcome,
    pub expected: fn(&[u8]) -> Vec<u8>,
    pub count: fn(&mut Tally, &[u8]),
}

pub static REPLAYER: Taker = Taker {
    name: "replay",
    path: REPLAY,
    run: programs::run,
    expected: |input| {
        let mut out = Vec::new();
        Replay::default().take(input, &mut out);
        out
    },
    count: |tally, output| tally.coverage.replies(output),
};

pub static RECEIVER: Scripted = Scripted {
    name: "drive",
    path: programs::player,
    run: console::run,
    cut: |input| {
        let ops: Result<Vec<script::Op>, ()> = Ops::new(input).collect();
        Some(ops.ok()?.into_iter().map(|op| script::encode(&[op])).collect())
    },
    count: |tally, output| tally.coverage.script(output),
};

pub static SENDER: Scripted = Scripted {
    name: "drive_sender",
    path: || DRIVE_SENDER,
    run: sender::console::run,
    cut: |input| {
        let ops: Result<Vec<sender::script::Op>, ()> = Ops::new(input).collect();
        Some(ops.ok()?.into_iter().map(|op| sender::script::encode(&[op])).collect())
    },
    count: |tally, output| tally.senders.script(output),
};

impl Scripted {
    pub fn expected(&self, input: &[u8]) -> Vec<u8> {
        let mut out = Vec::new();
        (self.run)(input, &mut out);
        out
    }

    fn outcome(&self, input: &[u8]) -> Outcome {
        programs::run(Path::new((self.path)()), input, LONGEST_SCRIPT)
    }

    fn differs(&self, input: &[u8]) -> bool {
        !self.outcome(input).agrees(&self.expected(input))
    }
}

#[derive(Default)]
pub struct Tally {
    pub coverage: Coverage,
    pub senders: SenderCoverage,
    pub menders: MendCoverage,
    pub windows: WindowCoverage,
    pub deltas: DeltaCoverage,
    pub isolation: IsolationCoverage,
    pub scripts: u64,
    pub recordings: u64,
    pub runs: u64,
    pub bytes: u64,
    pub differ: u64,
}

/// Joins the scripts in as few runs as their length allows.
pub fn batches(cases: Vec<Case>) -> Vec<Vec<Case>> {
    let mut batches: Vec<Vec<Case>> = Vec::new();
    let mut room = 0;
    for case in cases {
        let len = case.input.len();
        match batches.last_mut() {
            Some(batch) if len <= room => batch.push(case),
            _ => {
                room = LONGEST_SCRIPT;
                batches.push(vec![case]);
            }
        }
        room = room.saturating_sub(len);
    }
    batches
}

impl Tally {
    /// Judges scripts, each of which starts anew. Only the last one may be no proper script.
    pub fn scripts(&mut self, program: &Scripted, cases: Vec<Case>) {
        self.outputs(program, cases);
    }

    /// The same; gives what the program wrote for each.
    pub fn outputs(&mut self, program: &Scripted, cases: Vec<Case>) -> Vec<Vec<u8>> {
        batches(cases).iter().flat_map(|batch| self.batch(program, batch)).collect()
    }

    fn batch(&mut self, program: &Scripted, batch: &[Case]) -> Vec<Vec<u8>> {
        let input: Vec<u8> = batch.iter().flat_map(|case| case.input.iter().copied()).collect();
        let outputs: Vec<Vec<u8>> =
            batch.iter().map(|case| program.expected(&case.input)).collect();
        let expected = outputs.concat();
        self.scripts += batch.len() as u64;
        self.runs += 1;
        self.bytes += input.len() as u64;
        let actual = program.outcome(&input);
        (program.count)(self, &actual.output);
        if actual.agrees(&expected) {
            return outputs;
        }
        let before = self.differ;
        let alone = batch.iter().zip(&outputs);
        let alone = alone.map(|(case, expected)| self.alone(program, case, expected)).collect();
        if self.differ == before {
            // Each agrees alone: the fault lies in how they stand together.
            self.differ += 1;
            keep(&format!("{}-batch", batch[0].name), &input, &expected, &actual);
        }
        alone
    }

    fn alone(&mut self, program: &Scripted, case: &Case, expected: &[u8]) -> Vec<u8> {
        let actual = program.outcome(&case.input);
        if actual.agrees(expected) {
            return actual.output;
        }
        self.differ += 1;
        if !keep(&case.name, &case.input, expected, &actual) {
            return actual.output;
        }
        if let Some(ops) = (program.cut)(&case.input) {
            let small = shrink(ops, |ops| program.differs(&ops.concat())).concat();
            let actual = program.outcome(&small);
            write(&format!("{}-small", case.name), &small, &program.expected(&small), &actual);
        }
        actual.output
    }

    /// Judges a recording, written to the program in pieces of `step` bytes. Gives what the program wrote.
    pub fn recording(&mut self, program: &Taker, case: &Case, step: usize) -> Vec<u8> {
        let expected = (program.expected)(&case.input);
        let run = |input: &[u8], step| (program.run)(Path::new(program.path), input, step);
        let actual = run(&case.input, step);
        self.recordings += 1;
        self.runs += 1;
        self.bytes += case.input.len() as u64;
        (program.count)(self, &actual.output);
        if actual.agrees(&expected) {
            return actual.output;
        }
        self.differ += 1;
        if keep(&case.name, &case.input, &expected, &actual) {
            let differs =
                |input: &[u8]| !run(input, LONGEST_SCRIPT).agrees(&(program.expected)(input));
            let small = shrink(case.input.clone(), differs);
            let (expected, actual) = ((program.expected)(&small), run(&small, LONGEST_SCRIPT));
            write(&format!("{}-small", case.name), &small, &expected, &actual);
        }
        actual.output
    }

    pub fn join(&mut self, other: Tally) {
        self.coverage.join(other.coverage);
        self.senders.join(other.senders);
        self.menders.join(other.menders);
        self.windows.join(other.windows);
        self.deltas.join(other.deltas);
        self.isolation.join(other.isolation);
        self.scripts += other.scripts;
        self.recordings += other.recordings;
        self.runs += other.runs;
        self.bytes += other.bytes;
        self.differ += other.differ;
    }
}

/// Says that a case differs, and why. Keeps it unless enough are kept; answers whether it did.
fn keep(name: &str, input: &[u8], expected: &[u8], actual: &Outcome) -> bool {
    println!("differs: {name}: {}", actual.why(expected));
    if KEPT.fetch_add(1, Ordering::Relaxed) >= MOST_KEPT {
        return false;
    }
    write(name, input, expected, actual);
    true
}

/// Keeps scripts whose outputs do not agree with each other, unless enough are kept; answers whether it did.
pub fn keep_outputs(cases: &[Case], outputs: &[Vec<u8>]) -> bool {
    if KEPT_PAIRS.fetch_add(1, Ordering::Relaxed) >= MOST_KEPT {
        return false;
    }
    for (case, output) in cases.iter().zip(outputs) {
        let actual = Outcome { output: output.clone(), faults: Vec::new() };
        write(&case.name, &case.input, output, &actual);
    }
    true
}

fn write(name: &str, input: &[u8], expected: &[u8], actual: &Outcome) {
    let save = |end: &str, bytes: &[u8]| fs::write(format!("{KEEP_IN}/{name}.{end}"), bytes);
    let saved = fs::create_dir_all(KEEP_IN)
        .and_then(|()| save("in", input))
        .and_then(|()| save("expected", expected))
        .and_then(|()| save("actual", &actual.kept()));
    if let Err(error) = saved {
        println!("cannot keep {name}: {error}");
    }
}
