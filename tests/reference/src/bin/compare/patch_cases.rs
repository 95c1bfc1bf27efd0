//! Files for `patch`, and how they are judged: what it makes, where, and what it says.

use crate::delta_inputs::input;
use crate::files::Folder;
use crate::judge::{Case, Taker, Tally};
use crate::programs::{run_aloud_with, Outcome, PATCH};
use crate::rng::Rng;
use reference::console::LONGEST_SCRIPT;
use reference::delta::tool;
use std::path::{Path, PathBuf};
use std::{fs, io};

pub static PATCHER: Taker = Taker {
    name: "patch",
    path: PATCH,
    run,
    expected,
    count: |tally, output| {
        let first = output.split(|&byte| byte == b'\n').next().unwrap_or_default();
        tally.deltas.patch(&String::from_utf8_lossy(first));
        if output.ends_with(b"with a hash\n") {
            tally.deltas.patch("hash");
        }
    },
};

/// What `patch` is asked for: the new file on standard output, as a file that is not there, as one that is; a delta's operations.
const WANTED: [&str; 4] = ["output", "new", "over", "show"];
/// What stands in a file that is to become the new one.
const BEFORE: &[u8] = b"as before";

/// What is wanted and the three files as one input: a byte, three bytes with the signature's length and the old file's, all files.
pub fn joined(wanted: u8, [signature, old, delta]: &[Vec<u8>; 3]) -> Vec<u8> {
    let number = |number: usize| (number as u32).to_le_bytes()[..3].to_vec();
    let head = [vec![wanted], number(signature.len()), number(old.len())].concat();
    [&head[..], signature, old, delta].concat()
}

/// What was joined; none where what is left of an input that was made smaller is no such.
fn parted(input: &[u8]) -> Option<(&'static str, [&[u8]; 3])> {
    let (head, files) = input.split_at_checked(7)?;
    let number = |at: usize| u32::from_le_bytes([head[at], head[at + 1], head[at + 2], 0]) as usize;
    let (signature, rest) = files.split_at_checked(number(1))?;
    let (old, delta) = rest.split_at_checked(number(4))?;
    Some((WANTED.get(head[0] as usize)?, [signature, old, delta]))
}

/// What became of a run, in a form that leaves open what the page does: what stands for no hash and for an empty one.
struct Made {
    wanted: &'static str,
    output: Vec<u8>,
    said: String,
    new: Option<Vec<u8>>,
    /// Files that were not there before, but for the new one.
    left: usize,
}

impl Made {
    fn shown(&self) -> Vec<u8> {
        let said = self.said.trim_end();
        let refused = said.starts_with("refused");
        // What is left behind by a delta that was not taken is nobody's.
        let left = if refused { 0 } else { self.left };
        let answer = if refused { said } else { "taken" };
        let hash = match said {
            "" | "-" => "without a hash",
            _ if refused => "refused",
            _ => "with a hash",
        };
        let new = self.new.as_deref().unwrap_or(b"none");
        let head = format!("{} {answer}\n{} bytes\n", self.wanted, self.output.len());
        let middle = format!("\nnew {}\n", self.new.is_some());
        let tail = format!("\n{left} left\nsaid {}\n{hash}\n", said.trim_matches('-'));
        [head.as_bytes(), &self.output, middle.as_bytes(), new, tail.as_bytes()].concat()
    }
}

/// The numbers of each line; how an operation is named and how the end is told is left open.
fn numbers(said: &[u8]) -> Vec<String> {
    let text = String::from_utf8_lossy(said);
    let lines = text.lines().map(|line| line.strip_prefix("i ").unwrap_or(line));
    let number = |word: &&str| word.bytes().all(|byte| byte.is_ascii_digit());
    let numbers = lines
        .filter(|line| *line != "0")
        .map(|line| line.split(' ').filter(number).collect::<Vec<_>>().join(" "));
    numbers.filter(|line| !line.is_empty()).collect()
}

fn operations(output: &[u8], errors: &[u8]) -> Vec<u8> {
    let refusal = numbers(errors).join(" ");
    let lines = [numbers(output), numbers(errors)].concat();
    let last = lines.last().filter(|line| ["16", "17"].contains(&line.as_str()));
    let kind = if refusal.is_empty() { last.cloned().unwrap_or_default() } else { refusal };
    let head = format!("show {kind}");
    [head.trim_end(), "\n", &lines.join("\n"), "\n"].concat().into_bytes()
}

fn expected(input: &[u8]) -> Vec<u8> {
    let Some((wanted, [signature, old, delta])) = parted(input) else {
        return Vec::new();
    };
    if wanted == "show" {
        let (lines, refusal) = tool::show(delta);
        return operations(lines.as_bytes(), refusal.as_bytes());
    }
    let (made, said) = tool::run(signature, old, delta);
    let before = (wanted == "over").then(|| BEFORE.to_vec());
    let (output, new) = match (wanted, made) {
        ("output", made) => (made.unwrap_or_default(), None),
        (_, made) => (Vec::new(), made.or(before)),
    };
    Made { wanted, output, said, new, left: 0 }.shown()
}

/// Runs `patch` on files of the input.
fn run(path: &Path, input: &[u8], _: usize) -> Outcome {
    let Some((wanted, files)) = parted(input) else {
        return Outcome::default();
    };
    run_in_folder(path, wanted, files).unwrap_or_else(|error| {
        let faults = vec![format!("its files cannot be had: {error}")];
        Outcome { faults, ..Outcome::default() }
    })
}

fn run_in_folder(path: &Path, wanted: &'static str, files: [&[u8]; 3]) -> io::Result<Outcome> {
    let folder = Folder::new()?;
    let mut arguments: Vec<PathBuf> = Vec::new();
    for (name, bytes) in ["signature", "old", "delta"].into_iter().zip(files) {
        arguments.push(folder.put(name, bytes)?);
    }
    let new = folder.path("new");
    match wanted {
        "show" => {
            arguments.splice(..2, ["show".into()]);
        }
        "new" => arguments.push(new.clone()),
        "over" => arguments.push(folder.put("new", BEFORE)?),
        _ => {}
    }
    let (outcome, errors) = run_aloud_with(path, &arguments);
    if wanted == "show" {
        return Ok(Outcome { output: operations(&outcome.output, &errors), ..outcome });
    }
    let new = fs::read(new).ok();
    let left = folder.count()? - 3 - usize::from(new.is_some());
    let said = String::from_utf8_lossy(&errors).into();
    let made = Made { wanted, output: outcome.output, said, new, left };
    Ok(Outcome { output: made.shown(), ..outcome })
}

pub fn judge(tally: &mut Tally, seed: u64) {
    if sampled(seed) {
        judge_files(tally, &case(seed));
    }
}

pub fn judge_files(tally: &mut Tally, case: &Case) {
    tally.recording(&PATCHER, case, LONGEST_SCRIPT);
}

pub fn sampled(seed: u64) -> bool {
    seed % 10 == 0
}

pub fn case(seed: u64) -> Case {
    let rng = &mut Rng::new(seed ^ 0x7061_7463);
    let wanted = rng.weighted(&[35, 25, 20, 20]) as u8;
    Case { name: format!("patch-{seed}"), input: joined(wanted, &input(rng).joined()) }
}

#[cfg(test)]
mod tests {
    use super::*;
    use reference::delta::layout::{block, hash, header};

    #[test]
    fn what_is_left_open_is_not_compared() {
        let made = |said: &str| {
            let (output, said) = (b"abcd".to_vec(), said.into());
            Made { wanted: "output", output, said, new: None, left: 0 }.shown()
        };
        assert_eq!(made(""), made("-\n"));
        assert_ne!(made("aabb\n"), made(""));
        assert_ne!(made("refused 16\n"), made("refused 17\n"));
        assert_eq!(operations(b"i block 0\ni 0\n", b""), operations(b"block 0\n", b""));
        assert_eq!(operations(b"i 16\n", b""), operations(b"", b"refused 16\n"));
        assert_ne!(operations(b"block 0\n", b""), operations(b"block 1\n", b""));
    }

    #[test]
    fn an_input_reads_back() {
        let delta = [block(0), hash(b"12")].concat();
        let files = [header([0; 4], 4), b"abcdef".to_vec(), delta];
        let shown = String::from_utf8(expected(&joined(1, &files))).unwrap();
        let lines = "new taken\n0 bytes\n\nnew true\nabcd\n0 left\nsaid 3132\nwith a hash\n";
        assert_eq!(shown, lines);
        assert!(parted(&joined(4, &files)).is_none());
    }
}
