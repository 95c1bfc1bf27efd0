//! Recordings to mend, and how they are judged: each by `mend_script` in rooms about what it needs, a sample by `mend`.

use crate::bad_texts;
use crate::bad_values;
use crate::fields::{adorn, cast, Fields, ACTIONS};
use crate::framing::{damaged, fragments, framed, noise};
use crate::judge::{Case, Scripted, Taker, Tally};
use crate::mutate::mutate;
use crate::programs::{self, aloud, MEND, MEND_SCRIPT};
use crate::rng::Rng;
use crate::streams::{stream, Shape};
use crate::window::window;
use reference::console::LONGEST_SCRIPT;
use reference::mend::script::{self, HEAD, LIST, OUTPUT};
use reference::mend::{mended, tool, ROW};

pub static MENDER: Scripted = Scripted {
    name: "mend_script",
    path: || MEND_SCRIPT,
    run: script::run,
    // The rooms, then each byte of the recording.
    cut: |input| {
        let (rooms, recording) = input.split_at_checked(HEAD)?;
        let bytes = recording.iter().map(|&byte| vec![byte]);
        Some([rooms.to_vec()].into_iter().chain(bytes).collect())
    },
    count: |tally, output| tally.menders.script(output),
};

pub static MEND_TOOL: Taker = Taker {
    name: "mend",
    path: MEND,
    run: programs::run_aloud,
    expected: |recording| {
        let (kept, lines) = tool::run(recording);
        aloud(&kept, lines.as_bytes())
    },
    count: |tally, output| tally.menders.tool(output),
};

/// For what the program itself kept: nothing is dropped, whatever the reference says.
static AGAIN: Taker = Taker {
    name: "mend",
    path: MEND,
    run: programs::run_aloud,
    expected: |kept| aloud(kept, tool::summary(kept.len(), 0, 0).as_bytes()),
    count: |tally, output| tally.menders.tool(output),
};

/// Judges the script of a seed and, if the seed is of the sample, its recording for the tool.
pub fn judge(tally: &mut Tally, seed: u64) {
    judge_script(tally, script_case(seed));
    if sampled(seed) {
        judge_recording(tally, &tool_case(seed));
    }
}

pub fn judge_script(tally: &mut Tally, case: Case) {
    tally.menders.rooms(&case.input);
    tally.scripts(&MENDER, vec![case]);
}

/// By the tool, and what it kept once more.
pub fn judge_recording(tally: &mut Tally, case: &Case) {
    let output = tally.recording(&MEND_TOOL, case, LONGEST_SCRIPT);
    let (kept, _) = programs::apart(&output);
    if !kept.is_empty() {
        let again = Case { name: format!("{}-again", case.name), input: kept.to_vec() };
        tally.recording(&AGAIN, &again, LONGEST_SCRIPT);
        tally.menders.again(kept.len() < case.input.len());
    }
}

pub fn sampled(seed: u64) -> bool {
    seed % 10 == 0
}

pub fn script_case(seed: u64) -> Case {
    let rng = &mut Rng::new(seed ^ 0x6d65_6e64);
    let recording = recording(rng, LONGEST_SCRIPT - HEAD);
    let (output, list) = rooms(rng, &recording);
    Case { name: format!("mender-{seed}"), input: script::encode(output, list, &recording) }
}

/// One in six has about as many bytes as a recording may have.
pub fn tool_case(seed: u64) -> Case {
    let rng = &mut Rng::new(seed ^ 0x746f_6f6c);
    let mut input = recording(rng, 70_000);
    if rng.chance(16) {
        let len = *rng.pick(&[65_534, 65_535, 65_536, 65_536, 65_537, 65_538]);
        while input.len() < len {
            input.extend(recording(rng, 70_000));
            input.push(b'x');
        }
        input.truncate(len);
    }
    Case { name: format!("mend-{seed}"), input }
}

/// A recording of at most so many bytes: chunks one after another, some lost, doubled or cut, then some bytes changed.
fn recording(rng: &mut Rng, most: usize) -> Vec<u8> {
    if rng.chance(8) {
        return whole(rng);
    }
    let size = *rng.pick(&[0, 30, 100, 300, 300, 1000, 1000, 3000, 3000, 9000]);
    let size = if rng.chance(1) { most } else { size };
    let mut chunks = Vec::new();
    let mut len = 0;
    while len < size {
        let more = piece(rng);
        len += more.iter().map(Vec::len).sum::<usize>();
        chunks.extend(more);
    }
    for _ in 0..*rng.pick(&[0, 0, 1, 3, 10]) {
        harm(rng, &mut chunks);
    }
    let mut bytes = chunks.concat();
    for _ in 0..*rng.pick(&[0, 0, 0, 1, 5]) {
        mutate(rng, &mut bytes);
    }
    bytes.truncate(most.min(size + 20_000));
    bytes
}

/// Transfers of which nothing is to be dropped.
fn whole(rng: &mut Rng) -> Vec<u8> {
    let shape = Shape { commands: rng.within(1, 20), damage: 0, noise: 0, big: *rng.pick(&[0, 5]) };
    let count = rng.within(1, 3);
    let ids = cast(rng, count);
    window(rng, &shape, &ids).concat()
}

/// Chunks of one of the kinds.
fn piece(rng: &mut Rng) -> Vec<Vec<u8>> {
    let count = rng.within(1, 5);
    match rng.weighted(&[20, 20, 12, 12, 10, 12, 3]) {
        0 => {
            let shape = Shape {
                commands: rng.within(1, 8),
                damage: *rng.pick(&[0, 10, 40]),
                noise: *rng.pick(&[0, 10, 50]),
                big: *rng.pick(&[0, 0, 0, 10]),
            };
            stream(rng, &shape).chunks
        }
        1 => (0..count).map(|_| frame(rng)).collect(),
        2 => (0..count).map(|_| noise(rng)).collect(),
        3 => fragments(rng, count),
        4 => (0..count).map(|_| beginning(rng)).collect(),
        5 => vec![valued(rng)],
        _ => vec![long(rng)],
    }
}

fn fields(rng: &mut Rng) -> Fields {
    let action = *rng.pick(&ACTIONS);
    let id = cast(rng, 1).remove(0);
    let fields = Fields::new(action, &id);
    adorn(rng, fields)
}

/// A command's frame: whole, with a fault in its text, or damaged.
fn frame(rng: &mut Rng) -> Vec<u8> {
    let fields = fields(rng);
    match rng.weighted(&[50, 35, 15]) {
        0 => framed(&fields.text()),
        1 => framed(&bad_texts::faulty(rng, fields)),
        _ => damaged(rng, &fields.text()),
    }
}

/// A frame with one of the values that are most often not of their kind.
fn valued(rng: &mut Rng) -> Vec<u8> {
    let (key, value) = bad_values::any(rng);
    let mut fields = fields(rng);
    fields.0.retain(|(known, _)| known != key);
    framed(&fields.with(key, &value).text())
}

/// How a text may end, or not.
const ENDS: [&[u8]; 9] =
    [b"\x1b\\", b"\x1b\\", b"\x1bx", b"\x1b\x1b\\", b"\x1b\x1b]", b"\x1b", b"", b"\x1b]", b"\x07"];

/// The beginning of a command text, or almost, and an end.
fn beginning(rng: &mut Rng) -> Vec<u8> {
    let whole =
        *rng.pick(&[&b"5113;ac=send;id=m"[..], b"5113x;ac=send", b"5114;", b"72;t=a", b"511 3;"]);
    let most = *rng.pick(&[7, whole.len()]);
    let len = rng.within(0, most.min(whole.len()));
    [b"\x1b]", &whole[..len], *rng.pick(&ENDS)].concat()
}

/// A text of about 8,192 bytes, most often one that is read if it is not too long.
fn long(rng: &mut Rng) -> Vec<u8> {
    let mut text = fields(rng).with("xx", b"").text();
    if rng.chance(15) {
        text.splice(..5, *b"72;");
    }
    let len = *rng.pick(&[8191, 8192, 8192, 8193, 8193, 8194, 10_000]);
    text.resize(len, *rng.pick(b"A;=~"));
    if rng.chance(15) {
        let place = rng.below(len);
        text[place] = *rng.pick(b"\x00\x1b;\x7f\x80");
    }
    [b"\x1b]", &text[..], *rng.pick(&ENDS)].concat()
}

/// Loses, doubles, cuts, exchanges a chunk, or puts a 1B into it.
pub fn harm(rng: &mut Rng, chunks: &mut Vec<Vec<u8>>) {
    if chunks.is_empty() {
        return;
    }
    let (place, other) = (rng.below(chunks.len()), rng.below(chunks.len()));
    let at = rng.below(chunks[place].len() + 1);
    match rng.below(6) {
        0 => {
            chunks.remove(place);
        }
        1 => chunks.insert(other, chunks[place].clone()),
        2 => chunks[place].truncate(at),
        3 => {
            chunks[place].drain(..at);
        }
        4 => chunks.swap(place, other),
        _ => chunks[place].insert(at, 0x1b),
    }
}

/// Rooms for output and list, about what the recording needs.
fn rooms(rng: &mut Rng, recording: &[u8]) -> (usize, usize) {
    let needed = mended(recording).map_or((0, 0), |mended| (mended.kept.len(), mended.rows.len()));
    let output = *rng.pick(&[OUTPUT - 1, OUTPUT + 1, recording.len(), 0xff_ffff]);
    let list = *rng.pick(&[LIST - 1, LIST + 1, needed.1, OUTPUT, 0xff_ffff]);
    (room(rng, needed.0, OUTPUT, output), room(rng, ROW * needed.1, LIST, list))
}

fn room(rng: &mut Rng, needed: usize, all: usize, odd: usize) -> usize {
    match rng.weighted(&[34, 5, 12, 2, 6, 34, 2, 1, 4]) {
        0 => needed,
        1 => needed.saturating_sub(1),
        2 => needed + 1,
        3 => needed.saturating_sub(rng.within(2, 4)),
        4 => needed + rng.within(2, 4),
        5 => all,
        6 => 0,
        7 => rng.below(needed + 1),
        _ => odd,
    }
}

#[cfg(test)]
mod tests {
    use super::*;
    use crate::mend_coverage::MendCoverage;

    /// Without the special cases.
    #[test]
    fn everything_comes_up() {
        let mut coverage = MendCoverage::default();
        for seed in 0..600 {
            let script = script_case(seed).input;
            coverage.rooms(&script);
            coverage.script(&MENDER.expected(&script));
            let recording = tool_case(seed).input;
            coverage.tool(&(MEND_TOOL.expected)(&recording));
        }
        coverage.script(b"bad script\n");
        coverage.again(true);
        assert_eq!(coverage.missing(), Vec::<String>::new());
    }

    /// The claims about any recording: what is kept and what is dropped is all of it, and mended again nothing is dropped.
    #[test]
    fn the_claims_hold() {
        for seed in 0..300 {
            let recording = tool_case(seed).input;
            let Ok(mended) = reference::mend::mended(&recording) else {
                continue;
            };
            let dropped: usize = mended.rows.iter().map(|row| row.len).sum();
            assert_eq!(mended.kept.len() + dropped, recording.len());
            assert!(4 * mended.rows.len() <= recording.len() + 3);
            let kept = mended.kept;
            assert_eq!((MEND_TOOL.expected)(&kept), (AGAIN.expected)(&kept), "{seed}");
        }
    }
}
