//! Pairs of recordings to compare, and how they are judged: each by `windows_script` in a room about what it needs, a sample by
//! `compare_windows`.

use crate::files::Folder;
use crate::framing::noise;
use crate::judge::{Case, Scripted, Taker, Tally};
use crate::mend_cases::harm;
use crate::mutate::mutate;
use crate::programs::{run_with, Outcome, COMPARE_WINDOWS, WINDOWS_SCRIPT};
use crate::rng::Rng;
use crate::streams::{stream, Shape};
use crate::windows_plans::{change, plan, written};
use reference::console::LONGEST_SCRIPT;
use reference::mend::mended;
use reference::windows::heard::heard;
use reference::windows::script::{self, HEAD, LIST};
use reference::windows::{rows, tool, ROW};
use std::io;
use std::path::{Path, PathBuf};

pub static WINDOWS: Scripted = Scripted {
    name: "windows_script",
    path: || WINDOWS_SCRIPT,
    run: script::run,
    // The script's head says where the second recording begins, so only from that one bytes can be taken out.
    cut: |input| {
        let (_, first, second) = script::parts(input)?;
        let before = input[..HEAD + first.len()].to_vec();
        let bytes = second.iter().map(|&byte| vec![byte]);
        Some([before].into_iter().chain(bytes).collect())
    },
    count: |tally, output| tally.windows.script(output),
};

pub static WINDOWS_TOOL: Taker = Taker {
    name: "compare_windows",
    path: COMPARE_WINDOWS,
    run: run_pair,
    expected: |pair| parted(pair).map_or(Vec::new(), |(first, second)| tool::run(first, second)),
    count: |tally, output| tally.windows.tool(output),
};

/// For a recording beside itself or its mended form: every start of the first is same, whatever the reference says of the second.
pub static ALIKE: Taker = Taker {
    name: "compare_windows",
    path: COMPARE_WINDOWS,
    run: run_pair,
    expected: |pair| parted(pair).map_or(Vec::new(), |(first, _)| all_same(first)),
    count: |tally, output| tally.windows.tool(output),
};

fn all_same(recording: &[u8]) -> Vec<u8> {
    let starts = heard(recording);
    let pairs = starts.iter().map(|start| start.pair(recording));
    let lines = pairs.map(|(id, fid)| tool::named(id, fid, "same"));
    lines.chain([tool::summary([starts.len(), 0, 0, 0])]).collect::<Vec<_>>().concat()
}

/// Two recordings as one input: three bytes with the first's length, the first, the second.
pub fn joined(first: &[u8], second: &[u8]) -> Vec<u8> {
    [&(first.len() as u32).to_le_bytes()[..3], first, second].concat()
}

/// The two recordings that were joined; none where what is left of an input that was made smaller is no pair.
pub fn parted(pair: &[u8]) -> Option<(&[u8], &[u8])> {
    let (head, recordings) = pair.split_at_checked(3)?;
    recordings.split_at_checked(u32::from_le_bytes([head[0], head[1], head[2], 0]) as usize)
}

/// Runs the tool on files of the two recordings.
fn run_pair(path: &Path, pair: &[u8], _: usize) -> Outcome {
    let Some((first, second)) = parted(pair) else {
        return Outcome::default();
    };
    let run = || -> io::Result<Outcome> {
        let folder = Folder::new()?;
        let files = [folder.put("first", first)?, folder.put("second", second)?];
        Ok(run_with(path, &files))
    };
    run().unwrap_or_else(|error| {
        let faults = vec![format!("its files cannot be written: {error}")];
        Outcome { faults, ..Outcome::default() }
    })
}

/// Judges the script of a seed and, if the seed is of the sample, its pair for the tool.
pub fn judge(tally: &mut Tally, seed: u64) {
    judge_script(tally, script_case(seed));
    if sampled(seed) {
        judge_pair(tally, &tool_case(seed));
        judge_alike(tally, &alike_case(seed));
    }
}

pub fn judge_script(tally: &mut Tally, case: Case) {
    tally.windows.room(&case.input);
    tally.scripts(&WINDOWS, vec![case]);
}

pub fn judge_pair(tally: &mut Tally, case: &Case) {
    tally.windows.lengths(&case.input);
    tally.recording(&WINDOWS_TOOL, case, LONGEST_SCRIPT);
}

pub fn judge_alike(tally: &mut Tally, case: &Case) {
    tally.windows.alike(&case.input);
    tally.recording(&ALIKE, case, LONGEST_SCRIPT);
}

/// Without both files there is nothing to say on standard output; how the program then ends is left open.
pub fn judge_missing(tally: &mut Tally) {
    let there = Folder::new().and_then(|folder| Ok((folder.put("there", b"x")?, folder)));
    let Ok((there, folder)) = there else {
        return println!("left out: missing files");
    };
    let none = folder.path("none");
    let lists: [&[PathBuf]; 4] =
        [&[], std::slice::from_ref(&there), &[none.clone(), there.clone()], &[there.clone(), none]];
    for arguments in lists {
        let outcome = run_with(Path::new(COMPARE_WINDOWS), arguments);
        tally.recordings += 1;
        tally.runs += 1;
        if !outcome.output.is_empty() {
            tally.differ += 1;
            println!("differs: a missing file: something on standard output");
        }
    }
}

pub fn sampled(seed: u64) -> bool {
    seed % 10 == 0
}

pub fn script_case(seed: u64) -> Case {
    let rng = &mut Rng::new(seed ^ 0x7769_6e64);
    let (first, second) = pair(rng, LONGEST_SCRIPT - HEAD);
    let room = room(rng, &first, &second);
    Case { name: format!("window-{seed}"), input: script::encode(room, &first, &second) }
}

/// One in five has on one side or both about as many bytes as a recording may have.
pub fn tool_case(seed: u64) -> Case {
    let rng = &mut Rng::new(seed ^ 0x7061_6972);
    let (mut first, mut second) = pair(rng, 2 * 70_000);
    if rng.chance(20) {
        let which = rng.below(3);
        let mut long = |recording: &mut Vec<u8>| {
            let len = *rng.pick(&[65_535, 65_536, 65_536, 65_537, 65_538]);
            let fill = *rng.pick(b"x\x1b");
            recording.resize(len, fill);
        };
        if which != 0 {
            long(&mut first);
        }
        if which != 1 {
            long(&mut second);
        }
    }
    Case { name: format!("compare-windows-{seed}"), input: joined(&first, &second) }
}

/// A recording beside itself or beside its mended form.
pub fn alike_case(seed: u64) -> Case {
    let rng = &mut Rng::new(seed ^ 0x616c_696b);
    let first = pair(rng, 65_536).0;
    let second = if rng.chance(25) { first.clone() } else { mend(&first) };
    Case { name: format!("alike-{seed}"), input: joined(&first, &second) }
}

/// What the reference's mender keeps.
pub fn mend(recording: &[u8]) -> Vec<u8> {
    mended(recording).map_or(Vec::new(), |mended| mended.kept)
}

/// Two recordings that together have at most so many bytes.
fn pair(rng: &mut Rng, most: usize) -> (Vec<u8>, Vec<u8>) {
    let (mut first, mut second) = match rng.weighted(&[50, 20, 14, 5, 6, 5]) {
        0 => planned(rng),
        1 => {
            let chunks = chunks(rng);
            (damaged(rng, &chunks), damaged(rng, &chunks))
        }
        2 => {
            let (first, second) = (chunks(rng), chunks(rng));
            (damaged(rng, &first), damaged(rng, &second))
        }
        3 => {
            let chunks = chunks(rng);
            let recording = damaged(rng, &chunks);
            (recording.clone(), recording)
        }
        4 => {
            let chunks = chunks(rng);
            let recording = damaged(rng, &chunks);
            (mend(&recording), recording)
        }
        _ => (noise(rng), chunks(rng).concat()),
    };
    if first.len() + second.len() > most {
        first.truncate(most / 2);
        second.truncate(most / 2);
    }
    if rng.chance(50) {
        std::mem::swap(&mut first, &mut second);
    }
    (first, second)
}

/// The same senders twice, the second time most often with something changed.
fn planned(rng: &mut Rng) -> (Vec<u8>, Vec<u8>) {
    let mut plan = plan(rng);
    let first = written(rng, &plan);
    for _ in 0..*rng.pick(&[0, 1, 1, 2, 5]) {
        change(rng, &mut plan);
    }
    let second = written(rng, &plan);
    let harm = rng.chance(35);
    let mut bytes = |chunks: Vec<Vec<u8>>| match harm {
        true => damaged(rng, &chunks),
        false => chunks.concat(),
    };
    (bytes(first), bytes(second))
}

/// Chunks of a plan, or a stream of any kind.
fn chunks(rng: &mut Rng) -> Vec<Vec<u8>> {
    if rng.chance(50) {
        let plan = plan(rng);
        return written(rng, &plan);
    }
    let shape = Shape {
        commands: rng.within(1, 40),
        damage: *rng.pick(&[0, 0, 3, 12]),
        noise: *rng.pick(&[0, 5, 30]),
        big: *rng.pick(&[0, 0, 2, 20]),
    };
    stream(rng, &shape).chunks
}

/// The chunks with noise between them, some lost, doubled, exchanged or cut, then some bytes changed.
fn damaged(rng: &mut Rng, chunks: &[Vec<u8>]) -> Vec<u8> {
    let mut chunks = chunks.to_vec();
    for _ in 0..*rng.pick(&[0, 1, 4]) {
        let place = rng.below(chunks.len() + 1);
        chunks.insert(place, noise(rng));
    }
    for _ in 0..*rng.pick(&[0, 0, 1, 2, 6]) {
        harm(rng, &mut chunks);
    }
    let mut bytes = chunks.concat();
    for _ in 0..*rng.pick(&[0, 0, 0, 1, 3]) {
        mutate(rng, &mut bytes);
    }
    if rng.chance(10) {
        let len = rng.below(bytes.len() + 1);
        bytes.truncate(len);
    }
    bytes
}

/// A room for the list, about what is needed.
fn room(rng: &mut Rng, first: &[u8], second: &[u8]) -> usize {
    let count = rows(first, second).map_or(0, |rows| rows.len());
    let needed = ROW * count;
    match rng.weighted(&[40, 6, 12, 3, 3, 25, 3, 3, 5]) {
        0 => needed,
        1 => needed.saturating_sub(1),
        2 => needed + 1,
        3 => needed.saturating_sub(rng.within(2, 6)),
        4 => needed + rng.within(2, 6),
        5 => LIST,
        6 => 0,
        7 => count,
        _ => *rng.pick(&[LIST - 1, LIST + 1, 65_536, 0xff_ffff]),
    }
}

/// The inputs that `faults` tries on the tool.
pub fn tool_trials(seeds: std::ops::Range<u64>) -> Vec<Case> {
    let sampled = seeds.filter(|seed| sampled(*seed));
    sampled.flat_map(|seed| [tool_case(seed), alike_case(seed)]).collect()
}

#[cfg(test)]
mod tests {
    use super::*;
    use crate::windows_coverage::WindowCoverage;
    use reference::windows::Verdict;

    /// Without the special cases.
    #[test]
    fn everything_comes_up() {
        let mut coverage = WindowCoverage::default();
        for seed in 0..400 {
            let script = script_case(seed).input;
            coverage.room(&script);
            coverage.script(&WINDOWS.expected(&script));
            let pair = tool_case(seed).input;
            coverage.lengths(&pair);
            coverage.tool(&(WINDOWS_TOOL.expected)(&pair));
            coverage.alike(&alike_case(seed).input);
        }
        coverage.script(b"bad script\n");
        assert_eq!(coverage.missing(), Vec::<String>::new());
    }

    /// The page's laws about any recordings: beside itself or its mended form a recording is same, and exchanged the verdicts are
    /// mirrored.
    #[test]
    fn the_claims_hold() {
        for seed in 0..150 {
            let alike = alike_case(seed).input;
            assert_eq!((WINDOWS_TOOL.expected)(&alike), (ALIKE.expected)(&alike), "{seed}");
            let pair = tool_case(seed).input;
            let (first, second) = parted(&pair).unwrap();
            let (Ok(there), Ok(back)) = (rows(first, second), rows(second, first)) else {
                continue;
            };
            let mirrored = |verdict| match verdict {
                Verdict::OnlyFirst => Verdict::OnlySecond,
                Verdict::OnlySecond => Verdict::OnlyFirst,
                other => other,
            };
            let mut there: Vec<String> =
                there.iter().map(|row| format!("{:?}", row.verdict)).collect();
            let mut back: Vec<String> =
                back.iter().map(|row| format!("{:?}", mirrored(row.verdict))).collect();
            there.sort();
            back.sort();
            assert_eq!(there, back, "{seed}");
        }
    }
}
