//! Shares the cases out to two threads.

use crate::delta_cases::{self, DELTAS};
use crate::isolation_cases;
use crate::judge::{Case, Tally, RECEIVER, REPLAYER, SENDER};
use crate::mend_cases;
use crate::mutate::{mutated_recording, mutated_script, raw_script, Stored};
use crate::patch_cases;
use crate::recordings::recording;
use crate::scripts::script;
use crate::sender_scripts::sender_script;
use crate::windows_cases;
use reference::script::encode;
use reference::sender;
use std::sync::atomic::{AtomicU64, Ordering};
use std::thread;
use std::time::{Duration, Instant};

/// The scripts and recordings of the quick run and of the long one.
pub const QUICK: (u64, u64) = (2_000, 500);
pub const LONG: (u64, u64) = (100_000, 20_000);
/// The senders' scripts where no number is given.
pub const SENDERS: u64 = 2_000;
/// The same for recordings to mend.
pub const MENDERS: u64 = 2_000;
/// The same for pairs of recordings.
pub const WINDOWS: u64 = 2_000;
/// The same for deltas, in scripts and as files.
pub const DELTAS_TRIED: u64 = 2_000;
/// The same for pairs of scripts of one session, and those that faults are tried on.
pub const ISOLATION: u64 = 2_000;
pub const ISOLATION_TRIED: u64 = 500;

const THREADS: usize = 2;
/// Cases taken at a time.
const SCRIPTS: u64 = 100;
const RECORDINGS: u64 = 10;

/// The sizes in which recordings are written to the program, in turn.
const STEPS: [usize; 6] = [1_000_000, 65_536, 4096, 1000, 63, 65_535];

pub fn step(seed: u64, len: usize) -> usize {
    let step = STEPS[(seed % STEPS.len() as u64) as usize];
    // Small pieces cost a call each.
    step.max(len / 50).max(1)
}

/// Runs `take` on both threads until it says that nothing is left, and joins the tallies.
fn share(take: impl Fn(&mut Tally) -> bool + Sync) -> Tally {
    let worker = || {
        let mut tally = Tally::default();
        while take(&mut tally) {}
        tally
    };
    thread::scope(|scope| {
        let handles: Vec<_> = (0..THREADS).map(|_| scope.spawn(worker)).collect();
        let mut all = Tally::default();
        for handle in handles {
            match handle.join() {
                Ok(tally) => all.join(tally),
                Err(panic) => std::panic::resume_unwind(panic),
            }
        }
        all
    })
}

/// The next seeds of `0..count`, at most `step` of them.
fn seeds(next: &AtomicU64, count: u64, step: u64) -> std::ops::Range<u64> {
    let from = next.fetch_add(step, Ordering::Relaxed).min(count);
    from..(from + step).min(count)
}

/// The scripts and recordings of the first seeds.
pub fn generated((scripts, recordings): (u64, u64)) -> Tally {
    let (next_script, next_recording) = (AtomicU64::new(0), AtomicU64::new(0));
    share(|tally| {
        let a = seeds(&next_script, scripts, SCRIPTS);
        let b = seeds(&next_recording, recordings, RECORDINGS);
        let cases: Vec<Case> = a.clone().map(script_case).collect();
        tally.scripts(&RECEIVER, cases);
        for seed in b.clone() {
            let case = recording_case(seed);
            tally.recording(&REPLAYER, &case, step(seed, case.input.len()));
        }
        !a.is_empty() || !b.is_empty()
    })
}

/// The senders' scripts of the first seeds.
pub fn senders(count: u64) -> Tally {
    let next = AtomicU64::new(0);
    share(|tally| {
        let seeds = seeds(&next, count, SCRIPTS);
        tally.scripts(&SENDER, seeds.clone().map(sender_case).collect());
        !seeds.is_empty()
    })
}

/// The recordings to mend of the first seeds.
pub fn menders(count: u64) -> Tally {
    let next = AtomicU64::new(0);
    share(|tally| {
        let seeds = seeds(&next, count, RECORDINGS);
        seeds.clone().for_each(|seed| mend_cases::judge(tally, seed));
        !seeds.is_empty()
    })
}

/// The pairs of recordings of the first seeds.
pub fn windows(count: u64) -> Tally {
    let next = AtomicU64::new(0);
    share(|tally| {
        let seeds = seeds(&next, count, RECORDINGS);
        seeds.clone().for_each(|seed| windows_cases::judge(tally, seed));
        !seeds.is_empty()
    })
}

/// The deltas of the first seeds, in scripts.
pub fn deltas(count: u64) -> Tally {
    let next = AtomicU64::new(0);
    share(|tally| {
        let seeds = seeds(&next, count, SCRIPTS);
        tally.scripts(&DELTAS, seeds.clone().map(delta_cases::case).collect());
        !seeds.is_empty()
    })
}

/// Those that are files for `patch`, every tenth.
pub fn patches(count: u64) -> Tally {
    let next = AtomicU64::new(0);
    share(|tally| {
        let seeds = seeds(&next, count, SCRIPTS);
        seeds.clone().for_each(|seed| patch_cases::judge(tally, seed));
        !seeds.is_empty()
    })
}

/// The pairs of scripts of the first seeds, in each of which one session does the same.
pub fn isolation(count: u64) -> Tally {
    let next = AtomicU64::new(0);
    share(|tally| {
        let seeds = seeds(&next, count, SCRIPTS);
        isolation_cases::judge(tally, seeds.clone());
        !seeds.is_empty()
    })
}

/// Mutated cases for a time.
pub fn fuzzed(time: Duration, seed: u64, stored: &Stored) -> Tally {
    let end = Instant::now() + time;
    let next = AtomicU64::new(seed << 32);
    share(|tally| {
        let from = next.fetch_add(SCRIPTS, Ordering::Relaxed);
        let mut cases: Vec<Case> =
            (from..from + SCRIPTS / 2).map(|seed| mutated_script_case(seed, stored)).collect();
        // What may be no proper script ends a run, so it stands last in one.
        let raw = cases.split_off(cases.len() - 5);
        tally.scripts(&RECEIVER, cases);
        for (i, case) in raw.into_iter().enumerate() {
            let bad = raw_script_case(from + i as u64, stored);
            tally.scripts(&RECEIVER, vec![case, bad]);
        }
        for seed in from..from + SCRIPTS / 4 {
            let case = mutated_recording_case(seed, stored);
            tally.recording(&REPLAYER, &case, step(seed, case.input.len()));
        }
        Instant::now() < end
    })
}

pub fn script_case(seed: u64) -> Case {
    Case { name: format!("script-{seed}"), input: encode(&script(seed)) }
}

pub fn sender_case(seed: u64) -> Case {
    Case { name: format!("sender-{seed}"), input: sender::script::encode(&sender_script(seed)) }
}

pub fn recording_case(seed: u64) -> Case {
    Case { name: format!("recording-{seed}"), input: recording(seed) }
}

pub fn mutated_script_case(seed: u64, stored: &Stored) -> Case {
    Case { name: format!("fuzz-script-{seed}"), input: mutated_script(seed, stored) }
}

pub fn raw_script_case(seed: u64, stored: &Stored) -> Case {
    Case { name: format!("fuzz-raw-{seed}"), input: raw_script(seed, stored) }
}

pub fn mutated_recording_case(seed: u64, stored: &Stored) -> Case {
    Case { name: format!("fuzz-recording-{seed}"), input: mutated_recording(seed, stored) }
}
