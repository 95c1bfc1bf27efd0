//! The quick run's inputs with what the reference makes of them, made once to try many programs on.

use crate::delta_cases::{self, DELTAS};
use crate::isolation_cases::parted;
use crate::isolation_pairs::{self, Pair};
use crate::judge::{batches, Case, Scripted, Taker, RECEIVER, REPLAYER, SENDER};
use crate::mend_cases::{self, MENDER, MEND_TOOL};
use crate::patch_cases::{self, PATCHER};
use crate::programs::{self, Outcome};
use crate::windows_cases::{self, WINDOWS, WINDOWS_TOOL};
use crate::{
    delta_special, isolation_special, mend_special, sender_special, special, windows_special, work,
};
use reference::console::LONGEST_SCRIPT;
use std::path::Path;

/// One run of a program: a recording, or scripts that go in one run.
pub struct Trial {
    program: &'static str,
    run: fn(&Path, &[u8], usize) -> Outcome,
    /// The size of the pieces in which the input is written.
    step: usize,
    cases: Vec<(Case, Vec<u8>)>,
    /// The pairs that the cases are, where one session does the same in two.
    pairs: Vec<Pair>,
}

/// The inputs of the seeds, scripts and recordings in turn so that each kind comes early, then the special ones.
pub fn quick() -> Vec<Trial> {
    let scripts: Vec<Case> = (0..work::QUICK.0).map(work::script_case).collect();
    let together = |cases| scripts_together(&RECEIVER, cases);
    let mut scripts = batches(scripts).into_iter().map(together);
    let mut all: Vec<Trial> = Vec::new();
    for seed in 0..work::QUICK.1 {
        if seed % 5 == 0 {
            all.extend(scripts.next());
        }
        let case = work::recording_case(seed);
        let step = work::step(seed, case.input.len());
        all.push(a_recording(&REPLAYER, case, step));
    }
    all.extend(scripts);
    all.extend(special::scripts().into_iter().map(|case| together(vec![case])));
    all.extend(special::recordings().into_iter().map(|case| {
        let step = special::step(&case);
        a_recording(&REPLAYER, case, step)
    }));
    all
}

/// The same for senders.
pub fn senders() -> Vec<Trial> {
    let scripts: Vec<Case> = (0..work::SENDERS).map(work::sender_case).collect();
    let together = |cases| scripts_together(&SENDER, cases);
    let alone = sender_special::scripts().into_iter().map(|case| vec![case]);
    batches(scripts).into_iter().chain(alone).map(together).collect()
}

/// Those of recordings to mend: each script alone, and a sample of recordings by the tool.
pub fn menders() -> Vec<Trial> {
    let scripts = (0..work::MENDERS).map(mend_cases::script_case);
    let tools =
        (0..work::MENDERS).filter(|seed| mend_cases::sampled(*seed)).map(mend_cases::tool_case);
    let scripts = scripts.chain(mend_special::scripts());
    let tools = tools.chain(mend_special::recordings());
    let script = |case| scripts_together(&MENDER, vec![case]);
    let tool = |case| a_recording(&MEND_TOOL, case, LONGEST_SCRIPT);
    scripts.map(script).chain(tools.map(tool)).collect()
}

/// Those of pairs of recordings, likewise.
pub fn windows() -> Vec<Trial> {
    let scripts = (0..work::WINDOWS).map(windows_cases::script_case);
    let scripts = scripts.chain(windows_special::scripts());
    let pairs = windows_cases::tool_trials(0..work::WINDOWS).into_iter();
    let pairs = pairs.chain(windows_special::pairs());
    let script = |case| scripts_together(&WINDOWS, vec![case]);
    let tool = |case| a_recording(&WINDOWS_TOOL, case, LONGEST_SCRIPT);
    scripts.map(script).chain(pairs.map(tool)).collect()
}

/// Those of deltas: scripts together, special ones alone, and files.
pub fn deltas() -> Vec<Trial> {
    let scripts = (0..work::DELTAS_TRIED).map(delta_cases::case).collect();
    let alone = delta_special::scripts().into_iter().map(|case| vec![case]);
    let scripts = batches(scripts).into_iter().chain(alone);
    let sampled = (0..work::DELTAS_TRIED).filter(|seed| patch_cases::sampled(*seed));
    let files = sampled.map(patch_cases::case).chain(delta_special::files());
    let file = |case| a_recording(&PATCHER, case, LONGEST_SCRIPT);
    scripts.map(|cases| scripts_together(&DELTAS, cases)).chain(files.map(file)).collect()
}

/// Those of pairs of scripts in which one session does the same: as many in a run as go.
pub fn isolation() -> Vec<Trial> {
    let pairs = (0..work::ISOLATION_TRIED).filter_map(isolation_pairs::pair);
    let mut all: Vec<Trial> = Vec::new();
    let mut room = 0;
    for pair in pairs.chain(isolation_special::pairs()) {
        let cases = pair.cases();
        let len = cases.iter().map(|case| case.input.len()).sum();
        if len > room {
            all.push(scripts_together(&RECEIVER, Vec::new()));
            room = LONGEST_SCRIPT;
        }
        room = room.saturating_sub(len);
        if let Some(trial) = all.last_mut() {
            trial.cases.extend(scripts_together(&RECEIVER, cases.into()).cases);
            trial.pairs.push(pair);
        }
    }
    all
}

fn scripts_together(program: &Scripted, cases: Vec<Case>) -> Trial {
    let judged = |case: Case| {
        let expected = program.expected(&case.input);
        (case, expected)
    };
    let cases = cases.into_iter().map(judged).collect();
    let (run, step) = (programs::run, LONGEST_SCRIPT);
    Trial { program: program.name, run, step, cases, pairs: Vec::new() }
}

fn a_recording(program: &Taker, case: Case, step: usize) -> Trial {
    let expected = (program.expected)(&case.input);
    let cases = vec![(case, expected)];
    Trial { program: program.name, run: program.run, step, cases, pairs: Vec::new() }
}

impl Trial {
    pub fn inputs(&self) -> usize {
        self.cases.len()
    }

    /// The input that differs with the programs of this folder, and how; none if all agree.
    pub fn difference(&self, folder: &Path) -> Option<String> {
        let path = folder.join(self.program);
        let input: Vec<u8> = self.cases.iter().flat_map(|(case, _)| case.input.clone()).collect();
        let expected: Vec<u8> = self.cases.iter().flat_map(|(_, output)| output.clone()).collect();
        let why = self.why(&path, &input, &expected)?;
        let alone = |(case, expected): &(Case, Vec<u8>)| {
            let why = self.why(&path, &case.input, expected)?;
            Some(format!("{}, {why}", case.name))
        };
        let together = || format!("{} and those after it together, {why}", self.cases[0].0.name);
        Some(self.cases.iter().find_map(alone).unwrap_or_else(together))
    }

    /// The first pair in which the programs of this folder let a session see what others do: their outputs are compared with each other
    /// alone.
    pub fn leak(&self, folder: &Path) -> Option<String> {
        let input: Vec<u8> = self.cases.iter().flat_map(|(case, _)| case.input.clone()).collect();
        let output = (self.run)(&folder.join(self.program), &input, self.step).output;
        let scripts: Vec<_> = self.pairs.iter().flat_map(|pair| &pair.scripts).collect();
        let outputs = parted(&scripts, &output);
        let mut pairs = self.pairs.iter().zip(outputs.chunks(2));
        pairs.find_map(|(pair, outputs)| pair.leak([outputs[0], outputs[1]]))
    }

    /// How a run differs, if it does.
    fn why(&self, path: &Path, input: &[u8], expected: &[u8]) -> Option<String> {
        let outcome = (self.run)(path, input, self.step);
        (!outcome.agrees(expected)).then(|| outcome.why(expected))
    }
}
