//! One input by its kind and seed, written out with what both sides make of it.

use crate::delta_cases::{self, DELTAS};
use crate::isolation_cases;
use crate::judge::{Case, Scripted, Taker, RECEIVER, REPLAYER, SENDER};
use crate::mend_cases::{self, MENDER, MEND_TOOL};
use crate::patch_cases::{self, PATCHER};
use crate::programs::{self, Outcome};
use crate::windows_cases::{self, ALIKE, WINDOWS, WINDOWS_TOOL};
use crate::{stored, work};
use std::fs;
use std::path::Path;
use std::process::ExitCode;

/// What is expected, what came, and the program's path.
type Sides = (Vec<u8>, Outcome, &'static str);

pub fn one(kind: &str, seed: u64) -> Option<ExitCode> {
    let Case { name, input } = case(kind, seed)?;
    let (expected, actual, program) = match kind {
        "recording" | "fuzz-recording" => taken(&REPLAYER, &input),
        "mend" => taken(&MEND_TOOL, &input),
        "mender" => played(&MENDER, &input),
        "window" => played(&WINDOWS, &input),
        "compare-windows" => taken(&WINDOWS_TOOL, &input),
        "alike" => taken(&ALIKE, &input),
        "delta" => played(&DELTAS, &input),
        "patch" => taken(&PATCHER, &input),
        "sender" => played(&SENDER, &input),
        _ => played(&RECEIVER, &input),
    };
    let path = format!("target/reference/{name}");
    for (end, bytes) in [("in", &input), ("expected", &expected), ("actual", &actual.kept())] {
        if let Err(error) = fs::write(format!("{path}.{end}"), bytes) {
            println!("cannot write {path}.{end}: {error}");
        }
    }
    println!("{path}.in, {path}.expected (the reference), {path}.actual ({program})");
    if actual.agrees(&expected) {
        println!("agree");
        return Some(ExitCode::SUCCESS);
    }
    println!("differ: {}", actual.why(&expected));
    Some(ExitCode::FAILURE)
}

fn case(kind: &str, seed: u64) -> Option<Case> {
    Some(match kind {
        "script" => work::script_case(seed),
        "recording" => work::recording_case(seed),
        "sender" => work::sender_case(seed),
        "mender" => mend_cases::script_case(seed),
        "mend" => mend_cases::tool_case(seed),
        "window" => windows_cases::script_case(seed),
        "compare-windows" => windows_cases::tool_case(seed),
        "alike" => windows_cases::alike_case(seed),
        "delta" => delta_cases::case(seed),
        "patch" => patch_cases::case(seed),
        "isolation-first" => isolation_cases::script_case(seed, 0)?,
        "isolation-second" => isolation_cases::script_case(seed, 1)?,
        "fuzz-script" => work::mutated_script_case(seed, &stored()),
        "fuzz-raw" => work::raw_script_case(seed, &stored()),
        "fuzz-recording" => work::mutated_recording_case(seed, &stored()),
        _ => return None,
    })
}

fn played(program: &Scripted, input: &[u8]) -> Sides {
    let path = (program.path)();
    let actual = programs::run(Path::new(path), input, input.len().max(1));
    (program.expected(input), actual, path)
}

fn taken(program: &Taker, input: &[u8]) -> Sides {
    let actual = (program.run)(Path::new(program.path), input, input.len().max(1));
    ((program.expected)(input), actual, program.path)
}
