//! Mutated inputs: stored and generated ones, changed at random.

use crate::entries;
use crate::recordings::recording;
use crate::rng::Rng;
use crate::scripts::{self, script};
use crate::streams::part;
use reference::receiver::Entry;
use reference::script::{self as ops, Op, Ops};

/// Inputs that stand in the repository.
#[derive(Default)]
pub struct Stored {
    pub recordings: Vec<Vec<u8>>,
    /// Scripts, cut where they start anew.
    pub scripts: Vec<Vec<Op>>,
}

const LONGEST_RECORDING: usize = 30_000;
const LONGEST_SCRIPT: usize = 30_000;
const INTERESTING: &[u8] = b"\x1b\x1b\x1b\\\\]];;==0123456789-+/A~\x00\x07\x7f\x80\x9c\x9d\xff m";
const WORDS: [&[u8]; 20] = [
    b"\x1b]",
    b"\x1b\\",
    b"\x1b]5113;",
    b"5113;",
    b";id=m",
    b";fid=A",
    b"ac=file",
    b"ac=data",
    b"ac=receive",
    b";sz=1",
    b"ac=end_data",
    b";ac=finish",
    b";d=",
    b";n=L256",
    b"==",
    b";q=2",
    b";ft=directory",
    b"\x1b\x1b\\",
    b"\x1b]72;",
    b"72;",
];

impl Stored {
    /// Takes a script file apart; one that is no proper script adds nothing.
    pub fn add_script(&mut self, bytes: &[u8]) {
        let Ok(list) = Ops::new(bytes).collect::<Result<Vec<Op>, ()>>() else {
            return;
        };
        let parts = list.split(|op| *op == Op::Anew).filter(|part| !part.is_empty());
        self.scripts.extend(parts.map(|part| part.to_vec()));
    }

    fn recording(&self, rng: &mut Rng) -> Vec<u8> {
        let mut bytes = if !self.recordings.is_empty() && rng.chance(15) {
            rng.pick(&self.recordings).clone()
        } else {
            recording(rng.number())
        };
        bytes.truncate(*rng.pick(&[500, 2000, 6000, LONGEST_RECORDING]));
        bytes
    }

    fn script(&self, rng: &mut Rng) -> Vec<Op> {
        if !self.scripts.is_empty() && rng.chance(25) {
            rng.pick(&self.scripts).clone()
        } else {
            script(rng.number())
        }
    }
}

/// The mutated recording of a seed.
pub fn mutated_recording(seed: u64, stored: &Stored) -> Vec<u8> {
    let rng = &mut Rng::new(seed ^ 0x6675_7a7a);
    let mut bytes = stored.recording(rng);
    if rng.chance(15) {
        let other = stored.recording(rng);
        bytes = spliced(rng, &bytes, &other);
    }
    for _ in 0..rng.within(1, 12) {
        mutate(rng, &mut bytes);
    }
    bytes.truncate(LONGEST_RECORDING);
    bytes
}

/// The mutated script of a seed: operations changed, or a changed stream fed anew.
pub fn mutated_script(seed: u64, stored: &Stored) -> Vec<u8> {
    let rng = &mut Rng::new(seed ^ 0x7363_7269_7074);
    let mut list = if rng.chance(50) {
        let mut bytes = stored.recording(rng);
        bytes.truncate(4000);
        for _ in 0..rng.within(1, 6) {
            mutate(rng, &mut bytes);
        }
        scripts::perform(rng, &[bytes], vec![b"m".to_vec(), b"M".to_vec(), b"a".to_vec()])
    } else {
        let mut list = stored.script(rng);
        for _ in 0..rng.within(1, 8) {
            mutate_ops(rng, &mut list, stored);
        }
        list
    };
    list.insert(0, Op::Anew);
    while ops::encode(&list).len() > LONGEST_SCRIPT {
        list.pop();
    }
    ops::encode(&list)
}

/// The same with its bytes changed, so that it may be no proper script.
pub fn raw_script(seed: u64, stored: &Stored) -> Vec<u8> {
    let rng = &mut Rng::new(seed ^ 0x0072_6177);
    let mut bytes = mutated_script(seed, stored);
    for _ in 0..rng.within(1, 3) {
        mutate(rng, &mut bytes);
    }
    bytes.truncate(LONGEST_SCRIPT);
    // It stands behind others, so it must start anew.
    bytes.insert(0, b'n');
    bytes
}

fn spliced(rng: &mut Rng, a: &[u8], b: &[u8]) -> Vec<u8> {
    let (i, j) = (rng.below(a.len() + 1), rng.below(b.len() + 1));
    [&a[..i], &b[j..]].concat()
}

/// A run of bytes in a string, short more often than long.
fn span(rng: &mut Rng, len: usize) -> std::ops::Range<usize> {
    let most = *rng.pick(&[1, 4, 40, 400, 5000]);
    let start = rng.below(len + 1);
    start..(start + rng.within(1, most)).min(len).max(start)
}

pub fn mutate(rng: &mut Rng, bytes: &mut Vec<u8>) {
    if bytes.is_empty() {
        let word = *rng.pick(&WORDS);
        bytes.extend_from_slice(word);
    }
    let place = rng.below(bytes.len());
    let run = span(rng, bytes.len());
    match rng.below(10) {
        0 => bytes[place] ^= 1 << rng.below(8),
        1 => bytes[place] = *rng.pick(INTERESTING),
        2 => bytes.insert(place, *rng.pick(INTERESTING)),
        3 => {
            bytes.drain(run);
        }
        4 => {
            let copy = bytes[run].to_vec();
            bytes.splice(place..place, copy);
        }
        5 => {
            let word = rng.pick(&WORDS).to_vec();
            bytes.splice(place..place, word);
        }
        6 => swap_frames(rng, bytes),
        7 => bytes.truncate(place + bytes.len() / 2),
        8 => {
            let fill = vec![bytes[place]; *rng.pick(&[2, 33, 256, 4096, 8192])];
            bytes.splice(place..place, fill);
        }
        _ => bytes[place] = bytes[place].wrapping_add(*rng.pick(&[1, 255])),
    }
}

/// Takes the bytes apart before each 1B 5D and exchanges two of the parts.
fn swap_frames(rng: &mut Rng, bytes: &mut Vec<u8>) {
    let mut starts = vec![0];
    starts.extend((1..bytes.len().saturating_sub(1)).filter(|&i| bytes[i..].starts_with(b"\x1b]")));
    starts.push(bytes.len());
    let mut parts: Vec<&[u8]> = starts.windows(2).map(|pair| &bytes[pair[0]..pair[1]]).collect();
    let (i, j) = (rng.below(parts.len()), rng.below(parts.len()));
    parts.swap(i, j);
    *bytes = parts.concat();
}

fn mutate_ops(rng: &mut Rng, list: &mut Vec<Op>, stored: &Stored) {
    if list.is_empty() {
        list.push(Op::Text);
    }
    let place = rng.below(list.len());
    match rng.below(8) {
        0 => {
            list.remove(place);
        }
        1 => list.insert(place, list[place].clone()),
        2 => {
            let other = rng.below(list.len());
            list.swap(place, other);
        }
        3 => {
            let other = stored.script(rng);
            let from = rng.below(other.len());
            list.truncate(place);
            list.extend_from_slice(&other[from..]);
        }
        4 => split(rng, list, place),
        5 => list.insert(place, any_op(rng)),
        _ => change(rng, &mut list[place]),
    }
}

fn split(rng: &mut Rng, list: &mut Vec<Op>, place: usize) {
    if let Op::Feed(piece) = &mut list[place] {
        let rest = piece.split_off(rng.below(piece.len() + 1));
        list.insert(place + 1, Op::Feed(rest));
    }
}

fn change(rng: &mut Rng, op: &mut Op) {
    let other = rng.chance(30);
    match op {
        Op::Feed(piece) => mutate(rng, piece),
        Op::Allow(id) | Op::Deny(id) | Op::Drop(id) | Op::Numbers(id) => mutate(rng, id),
        Op::Part(bytes) | Op::LastPart(bytes) => mutate(rng, bytes),
        Op::Home { id, path } => mutate(rng, if other { id } else { path }),
        Op::List(entry) => change_entry(rng, entry),
        Op::Failed(code) | Op::ListFailed { code, .. } => *code = rng.within(1, 4) as u8,
        Op::Lend(_, len) => *len = len.wrapping_add(*rng.pick(&[1, 2, u16::MAX])),
        _ => *op = any_op(rng),
    }
}

fn change_entry(rng: &mut Rng, entry: &mut Entry) {
    match rng.below(9) {
        0 => entry.modified ^= 1 << rng.below(64),
        1 => entry.permissions = entry.permissions.wrapping_neg(),
        2 => entry.size = rng.number() as i64,
        3 => mutate(rng, &mut entry.id),
        4 => mutate(rng, &mut entry.path_id),
        5 => mutate(rng, &mut entry.parent),
        6 => mutate(rng, &mut entry.name),
        7 => mutate(rng, &mut entry.own_id),
        _ => mutate(rng, &mut entry.target),
    }
}

fn any_op(rng: &mut Rng) -> Op {
    let id = rng.word(&["m", "mm", "M", "a", "0", "@_:./-", ""]).to_vec();
    match rng.below(15) {
        0 => Op::Allow(id),
        1 => Op::Deny(id),
        2 => Op::Drop(id),
        3 => Op::Done,
        4 => Op::Failed(rng.within(1, 4) as u8),
        5 => Op::Text,
        6 => Op::Feed(rng.pick(&WORDS).to_vec()),
        7 => Op::Numbers(id),
        8 => Op::List(entries::entry(rng, id, 10)),
        9 => Op::ListFailed { id, fid: entries::id(rng), code: rng.within(1, 4) as u8 },
        10 => Op::Home { path: entries::home(rng, &id, 10), id },
        11 => Op::Part(part(rng, 10)),
        12 => Op::LastPart(part(rng, 10)),
        13 => Op::Unlisted,
        _ => Op::Anew,
    }
}
