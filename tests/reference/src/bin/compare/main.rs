//! Compares the programs under test with the reference; run at the repository's root.
//!
//! Generated and mutated inputs, judged on both sides.

mod bad_texts;
mod bad_values;
mod coverage;
mod delta_cases;
mod delta_coverage;
mod delta_differ;
mod delta_inputs;
mod delta_special;
mod dragging;
mod entries;
mod fields;
mod files;
mod framing;
mod hunt;
mod isolation_acts;
mod isolation_between;
mod isolation_cases;
mod isolation_coverage;
mod isolation_pairs;
mod isolation_plans;
mod isolation_seen;
mod isolation_special;
mod judge;
mod mend_cases;
mod mend_coverage;
mod mend_special;
mod mutate;
mod names;
mod one;
mod patch_cases;
mod patches;
mod programs;
mod receive_special;
mod receives;
mod recordings;
mod rng;
mod scripts;
mod sender_coverage;
mod sender_replies;
mod sender_scripts;
mod sender_special;
mod sequences;
mod shrink;
mod sizes;
mod special;
mod streams;
mod supplies;
mod trials;
mod window;
mod windows_cases;
mod windows_coverage;
mod windows_plans;
mod windows_special;
mod work;

use crate::judge::{Tally, KEEP_IN};
use crate::mutate::Stored;
use std::process::ExitCode;
use std::time::{Duration, Instant};
use std::{env, fs};

const USAGE: &str = "compare [in-place] quick | long | isolation [N] | fuzz SECONDS [SEED] | one KIND SEED
compare senders [N] | menders [N] | windows [N] | deltas [N] | patches [N] | faults [WORD..]
KIND: script, recording, sender, mender, mend, window, compare-windows, alike, delta, patch, fuzz-script, fuzz-raw, fuzz-recording,
isolation-first, isolation-second";

/// What came up, and whether what never did is a fault.
enum Cover {
    Must,
    May,
    Senders,
    Menders,
    Windows,
    Deltas,
    Patches,
    Isolation,
}

fn main() -> ExitCode {
    let args: Vec<String> = env::args().skip(1).collect();
    let mut args: Vec<&str> = args.iter().map(String::as_str).collect();
    if let ["faults", words @ ..] = &args[..] {
        return faults(words);
    }
    if args.first() == Some(&"in-place") {
        args.remove(0);
        programs::play_in_place();
    }
    let missing = programs::missing(&wanted(&args));
    if !missing.is_empty() {
        println!("missing: {}", missing.join(", "));
        return ExitCode::FAILURE;
    }
    run(&args).unwrap_or_else(usage)
}

/// The programs that a command needs.
fn wanted(args: &[&str]) -> Vec<&'static str> {
    match args {
        ["senders", ..] | ["one", "sender", _] => vec![programs::DRIVE_SENDER],
        ["menders", ..] | ["one", "mender" | "mend", _] => {
            vec![programs::MEND_SCRIPT, programs::MEND]
        }
        ["windows", ..] | ["one", "window" | "compare-windows" | "alike", _] => {
            vec![programs::WINDOWS_SCRIPT, programs::COMPARE_WINDOWS]
        }
        ["deltas", ..] | ["one", "delta", _] => vec![programs::DELTA_SCRIPT],
        ["patches", ..] | ["one", "patch", _] => vec![programs::PATCH],
        ["isolation", ..] => vec![programs::player()],
        _ => vec![programs::player(), programs::REPLAY],
    }
}

/// Runs a command; none if it is not one.
fn run(args: &[&str]) -> Option<ExitCode> {
    let start = Instant::now();
    let number = |text: &str| text.parse::<u64>().ok();
    let count = |given: &[&str], usual| match given {
        [] => Some(usual),
        [count] => number(count),
        _ => None,
    };
    let (tally, cover) = match args {
        ["quick"] => (generated(work::QUICK), Cover::Must),
        ["long"] => (generated(work::LONG), Cover::Must),
        ["fuzz", seconds] => (fuzz(number(seconds)?, 1), Cover::May),
        ["fuzz", seconds, seed] => (fuzz(number(seconds)?, number(seed)?), Cover::May),
        ["senders", given @ ..] => (senders(count(given, work::SENDERS)?), Cover::Senders),
        ["menders", given @ ..] => (menders(count(given, work::MENDERS)?), Cover::Menders),
        ["windows", given @ ..] => (windows(count(given, work::WINDOWS)?), Cover::Windows),
        ["deltas", given @ ..] => (deltas(count(given, work::DELTAS_TRIED)?), Cover::Deltas),
        ["patches", given @ ..] => (patched(count(given, work::DELTAS_TRIED)?), Cover::Patches),
        ["isolation", given @ ..] => (isolation(count(given, work::ISOLATION)?), Cover::Isolation),
        ["one", kind, seed] => return one::one(kind, number(seed)?),
        _ => return None,
    };
    Some(finish(start, tally, cover))
}

fn usage() -> ExitCode {
    println!("{USAGE}");
    ExitCode::FAILURE
}

fn generated(counts: (u64, u64)) -> Tally {
    let mut tally = Tally::default();
    special::judge(&mut tally);
    tally.join(work::generated(counts));
    tally
}

fn senders(count: u64) -> Tally {
    let mut tally = Tally::default();
    sender_special::judge(&mut tally);
    tally.join(work::senders(count));
    tally
}

fn menders(count: u64) -> Tally {
    let mut tally = Tally::default();
    mend_special::judge(&mut tally);
    tally.join(work::menders(count));
    tally
}

fn windows(count: u64) -> Tally {
    let mut tally = Tally::default();
    windows_special::judge(&mut tally);
    tally.join(work::windows(count));
    tally
}

fn deltas(count: u64) -> Tally {
    let mut tally = Tally::default();
    delta_special::judge(&mut tally);
    tally.join(work::deltas(count));
    tally
}

fn patched(count: u64) -> Tally {
    let mut tally = Tally::default();
    delta_special::judge_patches(&mut tally);
    tally.join(work::patches(count));
    tally
}

fn isolation(count: u64) -> Tally {
    let mut tally = Tally::default();
    isolation_special::judge(&mut tally);
    tally.join(work::isolation(count));
    tally
}

fn fuzz(seconds: u64, seed: u64) -> Tally {
    work::fuzzed(Duration::from_secs(seconds), seed, &stored())
}

/// Needs none of the programs under test: the reference is compared with itself, changed.
fn faults(words: &[&str]) -> ExitCode {
    match hunt::run(words) {
        Ok(true) => ExitCode::SUCCESS,
        Ok(false) => ExitCode::FAILURE,
        Err(error) => {
            println!("error: {error}");
            ExitCode::FAILURE
        }
    }
}

/// The inputs that stand in the repository; those that cannot be read are left out, and said.
fn stored() -> Stored {
    let mut stored = Stored::default();
    let kept = ["mirror-three", "mirror-parts", "mirror-directory"]
        .map(|name| format!("tests/kitty/recordings/{name}.rec"));
    for path in kept.iter().map(String::as_str).chain(["crates/replay/stdin"]) {
        stored.recordings.extend(read(path));
    }
    if let Some(script) = read("crates/drive/stdin") {
        stored.add_script(&script);
    }
    stored
}

fn read(path: &str) -> Option<Vec<u8>> {
    fs::read(path).inspect_err(|error| println!("left out: {path}: {error}")).ok()
}

fn finish(start: Instant, tally: Tally, cover: Cover) -> ExitCode {
    let cases = tally.scripts + tally.recordings;
    println!("scripts: {}, recordings: {}", tally.scripts, tally.recordings);
    println!("runs of a program: {}, bytes: {}", tally.runs, tally.bytes);
    let missing = missing(&tally, cover);
    if !missing.is_empty() {
        println!("never came up: {}", missing.join(", "));
    }
    println!("seconds: {:.1}", start.elapsed().as_secs_f64());
    if tally.differ > 0 {
        println!("the first differing inputs are in {KEEP_IN}");
    }
    println!("{} agree, {} differ", cases.saturating_sub(tally.differ), tally.differ);
    if tally.differ == 0 && missing.is_empty() {
        ExitCode::SUCCESS
    } else {
        ExitCode::FAILURE
    }
}

/// Prints what came up. Gives what should have and did not.
fn missing(tally: &Tally, cover: Cover) -> Vec<String> {
    match cover {
        Cover::Senders => {
            tally.senders.print();
            tally.senders.missing()
        }
        Cover::Menders => {
            tally.menders.print();
            tally.menders.missing()
        }
        Cover::Windows => {
            tally.windows.print();
            tally.windows.missing()
        }
        Cover::Deltas => {
            tally.deltas.print_scripts();
            tally.deltas.missing_in_scripts()
        }
        Cover::Patches => {
            tally.deltas.print_patches();
            tally.deltas.missing_in_patches()
        }
        Cover::Isolation => {
            tally.isolation.print();
            tally.isolation.missing()
        }
        Cover::Must => {
            tally.coverage.print();
            tally.coverage.missing()
        }
        Cover::May => {
            tally.coverage.print();
            Vec::new()
        }
    }
}
