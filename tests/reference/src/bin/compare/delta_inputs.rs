//! Signatures, old files and deltas: as a differ makes them, of any operations, at the limits, and damaged.

use crate::delta_differ::{diff, signature_of};
use crate::fields::random_bytes;
use crate::mutate::mutate;
use crate::rng::Rng;
use reference::delta::layout::{block, blocks, data, hash, header, Entry};
use reference::delta::script::{Buffer, Op};

/// Bytes as they are put into a buffer: written out, or one byte so often.
#[derive(Clone)]
pub enum Piece {
    Bytes(Vec<u8>),
    Run(u32, u8),
}

/// What a call is lent.
#[derive(Clone, Default)]
pub struct Input {
    pub signature: Vec<Piece>,
    pub old: Vec<Piece>,
    pub delta: Vec<Piece>,
}

/// The bytes of pieces, joined.
pub fn bytes(pieces: &[Piece]) -> Vec<u8> {
    let bytes = |piece: &Piece| match piece {
        Piece::Bytes(bytes) => bytes.clone(),
        Piece::Run(count, byte) => vec![*byte; *count as usize],
    };
    pieces.iter().flat_map(bytes).collect()
}

fn plain(bytes: Vec<u8>) -> Vec<Piece> {
    vec![Piece::Bytes(bytes)]
}

impl Input {
    pub fn plain(signature: Vec<u8>, old: Vec<u8>, delta: Vec<u8>) -> Input {
        Input { signature: plain(signature), old: plain(old), delta: plain(delta) }
    }

    /// The operations that put it into the buffers of a script.
    pub fn ops(&self) -> Vec<Op> {
        let of = |buffer, pieces: &[Piece]| -> Vec<Op> {
            let op = |piece: &Piece| match piece {
                Piece::Bytes(bytes) => {
                    bytes.chunks(60_000).map(|part| Op::Append(buffer, part.to_vec())).collect()
                }
                Piece::Run(count, byte) => vec![Op::Fill(buffer, *count, *byte)],
            };
            pieces.iter().flat_map(op).collect()
        };
        let (signature, old) = (of(Buffer::Signature, &self.signature), of(Buffer::Old, &self.old));
        [signature, old, of(Buffer::Delta, &self.delta)].concat()
    }

    pub fn joined(&self) -> [Vec<u8>; 3] {
        [bytes(&self.signature), bytes(&self.old), bytes(&self.delta)]
    }
}

pub fn input(rng: &mut Rng) -> Input {
    match rng.weighted(&[30, 25, 15, 20, 10]) {
        0 => real(rng),
        1 => any(rng, 0),
        2 => any(rng, 30),
        3 => damaged(rng),
        _ => large(rng),
    }
}

/// An old file; few different bytes, so that blocks come twice.
fn old_file(rng: &mut Rng) -> Vec<u8> {
    let len = *rng.pick(&[0, 1, 2, 7, 8, 9, 40, 40, 100, 300, 300, 1000, 3000]);
    let len = if rng.chance(50) { len } else { rng.below(len + 1) };
    match rng.below(3) {
        0 => random_bytes(rng, len),
        1 => (0..len).map(|i| b'a' + (i % 26) as u8).collect(),
        _ => (0..len).map(|_| *rng.pick(b"aab")).collect(),
    }
}

fn block_size(rng: &mut Rng, old: usize) -> u32 {
    let old = old as u32;
    match rng.weighted(&[40, 20, 10, 10, 10, 10]) {
        0 => rng.within(1, 9) as u32,
        1 => (f64::from(old).sqrt() as u32).max(1),
        2 => old.max(1),
        3 => old + 1,
        4 => old.saturating_sub(1).max(1),
        _ => *rng.pick(&[1, 255, 256, 65_535, 65_536, 65_537, 1 << 31, u32::MAX, 1 << 16]),
    }
}

/// The file after some edits: runs taken out, put in, changed, copied, moved.
fn edited(rng: &mut Rng, old: &[u8]) -> Vec<u8> {
    let mut new = old.to_vec();
    for _ in 0..rng.below(5) {
        let from = rng.below(new.len() + 1);
        let to = (from + rng.below(20)).min(new.len());
        let at = rng.below(new.len() + 1);
        match rng.below(5) {
            0 => {
                new.drain(from..to);
            }
            1 => {
                let len = rng.within(1, 10);
                let more = random_bytes(rng, len);
                new.splice(at..at, more);
            }
            2 => {
                let run = new[from..to].to_vec();
                new.splice(at..at, run);
            }
            3 => new.rotate_left(at),
            _ if at < new.len() => new[at] ^= 1 << rng.below(8),
            _ => new.clear(),
        }
    }
    new
}

fn checksum(rng: &mut Rng) -> Vec<u8> {
    let len = *rng.pick(&[16, 16, 16, 0, 1, 2, 255, 300]);
    hash(&random_bytes(rng, len))
}

/// A delta of a differ, its hash most often at the end.
fn real(rng: &mut Rng) -> Input {
    let old = old_file(rng);
    let size = block_size(rng, old.len());
    let new = edited(rng, &old);
    let mut parts = diff(&old, &new, size);
    if rng.chance(85) {
        let place = if rng.chance(80) { parts.len() } else { rng.below(parts.len() + 1) };
        parts.insert(place, checksum(rng));
    }
    // Many blocks would leave no room for the rest of a script; a header alone is a signature too.
    let few = old.len() / (size as usize) < 600;
    let signature = if few { signature_of(&old, size) } else { header([0; 4], size) };
    Input::plain(signature, old, parts.concat())
}

/// A number about what a block may have, or far from it.
fn odd_index(rng: &mut Rng, size: u32, old: usize) -> u64 {
    let count = (old as u64).div_ceil(size.into());
    // So often the block size passes 2^64: a product that wraps starts again from zero.
    let wraps = u64::MAX / u64::from(size);
    match rng.below(6) {
        0 => count,
        1 => count.saturating_sub(1),
        2 => count + 1,
        3 => wraps.wrapping_add(rng.below(3) as u64),
        4 => u64::MAX - rng.below(2) as u64,
        _ => 1 << *rng.pick(&[8, 16, 31, 32, 33, 40, 48, 63]),
    }
}

/// One operation; so often in a hundred it is at or past a limit.
fn operation(rng: &mut Rng, size: u32, old: usize, odd: usize) -> Vec<u8> {
    let count = (old as u64).div_ceil(size.into());
    let index = match count {
        0 => 0,
        _ => rng.number() % count,
    };
    if rng.chance(odd) {
        let index = odd_index(rng, size, old);
        return match rng.below(3) {
            0 => block(index),
            1 => blocks(index, rng.below(3) as u32),
            _ => blocks(rng.number() % count.max(1), index as u32),
        };
    }
    match rng.weighted(&[35, 30, 30, 5]) {
        0 if count > 0 => block(index),
        1 if count > 0 => blocks(index, (rng.number() % (count - index).min(40)) as u32),
        3 => checksum(rng),
        _ => {
            let len = *rng.pick(&[0, 1, 2, 5, 20]);
            data(&random_bytes(rng, len))
        }
    }
}

/// A signature whose blocks have any index, in any order, twice, and any sums.
fn any_signature(rng: &mut Rng, size: u32) -> Vec<u8> {
    let mut all = header([0; 4], size);
    for _ in 0..rng.weighted(&[40, 20, 20, 20]) {
        let index = if rng.chance(70) { rng.below(5) as u64 } else { rng.number() };
        all.extend(Entry { index, weak: rng.number() as u32, strong: rng.number() }.laid());
    }
    all
}

/// Operations without regard to what they make.
fn any(rng: &mut Rng, odd: usize) -> Input {
    let old = old_file(rng);
    let size = block_size(rng, old.len());
    let count = rng.below(8);
    let delta: Vec<Vec<u8>> = (0..count).map(|_| operation(rng, size, old.len(), odd)).collect();
    Input::plain(any_signature(rng, size), old, delta.concat())
}

/// A good input with a fault in its header, its signature or its delta.
fn damaged(rng: &mut Rng) -> Input {
    let input = if rng.chance(50) { real(rng) } else { any(rng, 0) };
    let [mut signature, old, mut delta] = input.joined();
    match rng.weighted(&[10, 8, 12, 25, 20, 10, 15]) {
        // Another field, or a block size of 0.
        0 => signature[rng.below(8)] = *rng.pick(&[1, 255]),
        1 => signature[8..12].fill(0),
        2 => {
            let len = rng.below(signature.len() + 20);
            signature.resize(len, 7);
        }
        3 => delta.truncate(rng.below(delta.len() + 1)),
        4 => mutate(rng, &mut delta),
        5 => delta.push(rng.byte()),
        _ => {
            let (first, second) = (checksum(rng), checksum(rng));
            delta = [first, delta, second].concat();
        }
    }
    Input::plain(signature, old, delta)
}

/// Inputs and results about 65,536 bytes.
fn large(rng: &mut Rng) -> Input {
    let near = |rng: &mut Rng| *rng.pick(&[65_535u32, 65_536, 65_536, 65_537, 65_600]);
    let size = *rng.pick(&[1, 2, 255, 256, 4096, 32_768, 65_535, 65_536, 65_537, u32::MAX]);
    let mut signature = plain(header([0; 4], size));
    let mut old = vec![Piece::Run(*rng.pick(&[256, 4096, 65_535, 65_536, 65_536]), rng.byte())];
    let mut delta = Vec::new();
    let len = bytes(&old).len();
    for _ in 0..rng.within(1, 5) {
        let part = operation(rng, size, len, 5);
        delta.push(Piece::Bytes(if rng.chance(50) { block(0) } else { part }));
    }
    match rng.weighted(&[40, 10, 10, 10, 20, 10]) {
        1 => old = vec![Piece::Run(near(rng), 1)],
        2 => signature.push(Piece::Run(near(rng) - 12, 0)),
        // About as long as a delta may be: hashes that cannot be read, or one data operation.
        3 => delta.push(Piece::Run(near(rng) - bytes(&delta).len() as u32, 2)),
        4 => delta = long_data(rng),
        5 => delta = vec![Piece::Bytes(blocks(0, len as u32 / size.min(60_000)).repeat(40))],
        _ => {}
    }
    Input { signature, old, delta }
}

/// A data operation that fills a delta up to about its limit, and a result up to it.
fn long_data(rng: &mut Rng) -> Vec<Piece> {
    let len = *rng.pick(&[65_530u32, 65_531, 65_531, 65_532, 60_000]);
    let head = [&[1][..], &len.to_le_bytes()].concat();
    let whole = if rng.chance(80) { len } else { len - 1 };
    vec![Piece::Bytes(head), Piece::Run(whole, rng.byte())]
}
