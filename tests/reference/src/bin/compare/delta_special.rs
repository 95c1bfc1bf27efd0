//! Inputs of order 13 that no seed makes, or few: the page's examples in each room, each cut of each operation, each field of a header,
//! indexes about their limits, everything about 65,536 bytes, sums of windows, scripts that are none.

use crate::delta_cases::DELTAS;
use crate::delta_inputs::{Input, Piece};
use crate::judge::{Case, Tally};
use crate::patch_cases::{self, joined};
use crate::special::named;
use reference::console::LONGEST_SCRIPT;
use reference::delta::layout::{block, blocks, data, hash, header};
use reference::delta::measure;
use reference::delta::script::{encode, Buffer, Op, BUFFER};
use reference::notation;

/// Judges the scripts.
pub fn judge(tally: &mut Tally) {
    scripts().into_iter().for_each(|case| tally.scripts(&DELTAS, vec![case]));
}

/// Judges the files for `patch`.
pub fn judge_patches(tally: &mut Tally) {
    files().iter().for_each(|case| patch_cases::judge_files(tally, case));
}

pub fn scripts() -> Vec<Case> {
    let known = [examples(), cuts(), headers(), indexes(), limits(), vec![vector()]].concat();
    let mut all: Vec<Vec<u8>> = known.iter().map(tried).collect();
    all.extend(sums());
    all.extend(no_scripts());
    named("delta", all)
}

/// Each input with each thing that can be wanted.
pub fn files() -> Vec<Case> {
    let known = [examples(), limits(), vec![vector()]].concat();
    let files = known.iter().flat_map(|input| {
        let files = input.joined();
        (0..4).map(move |wanted| joined(wanted, &files))
    });
    named("patch", files.collect())
}

/// Every call on an input, the output's room on both sides of what is needed.
fn tried(input: &Input) -> Vec<u8> {
    let [sig, old, delta] = input.joined();
    let mut ops = input.ops();
    ops.extend([Op::Signature, Op::Entry(0), Op::Entry(1), Op::Operations, Op::Measure]);
    let len = measure(&sig, &old, &delta).map_or(0, |measured| measured.len as u32);
    for room in [len.saturating_sub(1), len, len + 1, 0, 65_536, BUFFER as u32, u32::MAX] {
        ops.extend([Op::Lend(room), Op::Apply]);
        if len < 1_000 || room == len {
            ops.push(Op::Result);
        }
    }
    encode(&ops)
}

/// Bytes as pieces: long runs of one byte are not written out.
fn pieces(bytes: &[u8]) -> Vec<Piece> {
    let mut all: Vec<Piece> = Vec::new();
    for run in bytes.chunk_by(|a, b| a == b) {
        match all.last_mut() {
            _ if run.len() > 100 => all.push(Piece::Run(run.len() as u32, run[0])),
            Some(Piece::Bytes(bytes)) => bytes.extend_from_slice(run),
            _ => all.push(Piece::Bytes(run.to_vec())),
        }
    }
    all
}

fn of(signature: &[u8], old: &[u8], delta: &[u8]) -> Input {
    Input { signature: pieces(signature), old: pieces(old), delta: pieces(delta) }
}

/// The page's.
fn examples() -> Vec<Input> {
    let page = include_str!("../../../tests/order13.txt").lines();
    let given =
        page.filter(|line| !line.starts_with('#')).filter_map(|line| line.split_once(" =>"));
    let input = |text: &str| {
        let parts: Vec<&str> = text.split('|').map(str::trim).collect();
        let (old, delta) = (notation::bytes(parts[1]), notation::delta(parts[2]));
        of(&notation::signature(parts[0]), &old, &delta)
    };
    given.map(|(text, _)| input(text)).collect()
}

/// What kitty 0.48 made of `abc` and `abcd`.
fn vector() -> Input {
    let signature =
        b"\0\0\0\0\0\0\0\0\x02\0\0\0\0\0\0\0\0\0\0\0\xc3\0\x24\x01\x5c\x73\xd5\x24\x9c\x71\x73\xa8\
        \x01\0\0\0\0\0\0\0\x63\0\x63\0\x1b\xf8\xb9\x46\x9a\x21\x40\x8c";
    let checksum = b"\x8d\x6b\x60\x38\x3d\xfa\x90\xc2\x1b\xe7\x9e\xec\xd1\xb1\x35\x3d";
    of(signature, b"abc", &[block(0), data(b"cd"), hash(checksum)].concat())
}

/// Operations cut off at each place, and every type.
fn cuts() -> Vec<Input> {
    let sig = header([0; 4], 4);
    let whole = [block(1), data(b"xyz"), hash(b"#1"), blocks(0, 1), data(b""), block(2)].concat();
    let mut deltas: Vec<Vec<u8>> = (0..=whole.len()).map(|len| whole[..len].to_vec()).collect();
    for kind in 0..=255 {
        deltas.extend([vec![kind], vec![kind; 13], [&block(0)[..], &[kind; 12]].concat()]);
    }
    // Two hashes, whatever they are and wherever they stand.
    for (first, second) in [("", ""), ("1", ""), ("", "2"), ("1", "1")] {
        let (first, second) = (hash(first.as_bytes()), hash(second.as_bytes()));
        deltas.push([&first[..], &block(0), &second].concat());
        deltas.push([&block(0)[..], &first, &second].concat());
    }
    deltas.iter().map(|delta| of(&sig, b"abcdefghij", delta)).collect()
}

/// Each bit of a header, and signatures of each length.
fn headers() -> Vec<Input> {
    let good = header([0; 4], 4);
    let mut all = Vec::new();
    for bit in 0..8 * good.len() {
        let mut bytes = good.clone();
        bytes[bit / 8] ^= 1 << (bit % 8);
        all.push(bytes);
    }
    for len in 0..=53 {
        let mut bytes = good.clone();
        bytes.resize(len, 3);
        all.push(bytes);
    }
    all.iter().map(|signature| of(signature, b"abcdefghij", &blocks(0, 2))).collect()
}

/// Blocks and ranges about the end of files, and about where a product or a sum of 64 bits wraps.
fn indexes() -> Vec<Input> {
    let mut all = Vec::new();
    for size in [1, 2, 3, 4, 5, 9, 10, 11, 1 << 31, u32::MAX] {
        let wrap = (1u128 << 64) / u128::from(size);
        let far = [wrap as u64, wrap.wrapping_sub(1) as u64, 1 << 32, 1 << 33, 1 << 63, u64::MAX];
        for index in (0..12).chain(far) {
            all.push((size, block(index)));
            for more in [0, 1, 2, 9, u32::MAX] {
                all.push((size, blocks(index, more)));
            }
        }
    }
    let sound = |(size, delta): &(u32, Vec<u8>)| of(&header([0; 4], *size), b"abcdefghij", delta);
    all.iter().map(sound).collect()
}

/// Each input, and the result, about 65,536 bytes; more than one of them too long, and what would be 16 or 9 besides.
fn limits() -> Vec<Input> {
    let mut all = Vec::new();
    let run = |count: usize, byte| vec![byte; count];
    for len in [65_535, 65_536, 65_537, BUFFER] {
        let sig = header([0; 4], 65_536);
        all.push(of(&sig, &run(len, b'o'), &block(0)));
        all.push(of(&sig, &run(len, b'o'), &[4]));
        all.push(of(&header([0; 4], 0), &run(len, b'o'), &block(0)));
        all.push(of(&sig, b"abc", &data(&run(len - 5, b'd'))));
        all.push(of(&sig, b"abc", &run(len, 2)));
        all.push(of(&sig, b"abc", &hash(b"").repeat(len / 3)));
        all.push(of(&[&sig[..], &run(len - 12, 0)].concat(), b"abc", &block(0)));
        all.push(of(&run(len, 1), &run(len, 1), &run(len, 9)));
    }
    // Which of several faults is told.
    let (good, long) = (header([0; 4], 65_536), run(65_537, 0));
    for signature in [&good[..], &good[..11], &long] {
        for old in [&b"abc"[..], &long] {
            for delta in [&block(0)[..], &block(1), &[4], &long, &block(0).repeat(7_281)] {
                all.push(of(signature, old, delta));
            }
        }
    }
    for (size, old, delta) in results() {
        all.push(of(&header([0; 4], size), &run(old, b'r'), &delta));
        // A fault behind all of it is told first.
        all.push(of(&header([0; 4], size), &run(old, b'r'), &[&delta[..], &[4]].concat()));
    }
    all
}

/// Deltas whose results have about 65,536 bytes, and the most that a delta can give.
fn results() -> Vec<(u32, usize, Vec<u8>)> {
    let mut all = Vec::new();
    for more in 0..3 {
        let data = data(&vec![b'x'; more]);
        for (size, old) in [(65_535, 65_535), (65_536, 65_535), (65_534, 65_534), (65_536, 65_536)]
        {
            all.push((size, old, [&block(0)[..], &data].concat()));
        }
        all.push((1, 32_767, [&blocks(0, 32_766).repeat(2)[..], &data].concat()));
        all.push((256, 65_536, [&blocks(0, 255)[..], &data].concat()));
    }
    all.push((65_536, 65_536, block(0).repeat(7_281)));
    all.push((1, 65_536, blocks(0, 65_535).repeat(4)));
    all.push((65_536, 65_536, block(0).repeat(2)));
    all
}

/// Windows of old files, and the same rolled on: about the end, of every byte, longer than 2^16.
fn sums() -> Vec<Vec<u8>> {
    let near = |old: u32| [0, 1, 2, old / 2, old.saturating_sub(1), old, old + 1, u32::MAX];
    let tried = |old: &[Piece], len: u32| {
        let mut ops = Input { old: old.to_vec(), ..Input::default() }.ops();
        for start in near(len) {
            ops.extend(near(len).map(|len| Op::Sum { start, len }));
            for times in [0, 1, len / 3, len] {
                ops.extend(near(len).map(|len| Op::Roll { start, len, times }));
            }
        }
        encode(&ops)
    };
    let each: Vec<u8> = (0..=255).chain((0..=255).rev()).collect();
    let mut all = vec![tried(&[], 0), tried(&pieces(b"abcde"), 5), tried(&pieces(&each), 512)];
    for (count, byte) in
        [(65_535, 0xff), (65_536, 0xff), (65_537, 0xff), (65_600, 0xff), (65_600, 1)]
    {
        all.push(tried(&[Piece::Run(count, byte)], count));
    }
    all
}

/// Unknown letters, operations cut off after each byte, appends about the buffers' room, scripts about their longest.
fn no_scripts() -> Vec<Vec<u8>> {
    let known = b"soSOdDnrhbimaxwl";
    let mut all: Vec<Vec<u8>> = (0..=255)
        .filter(|letter| !known.contains(letter))
        .map(|letter| vec![b'x', letter])
        .collect();
    let long = [
        Op::Append(Buffer::Delta, b"abc".to_vec()),
        Op::Fill(Buffer::Old, 3, b'z'),
        Op::Lend(77),
        Op::Entry(1),
        Op::Sum { start: 0, len: 1 },
        Op::Roll { start: 0, len: 1, times: 1 },
    ];
    for op in long.map(|op| encode(&[op])) {
        all.extend((1..=op.len()).map(|len| [b"x", &op[..len]].concat()));
    }
    for buffer in [Buffer::Signature, Buffer::Old, Buffer::Delta] {
        for more in [59, 60, 61] {
            let filled = Op::Fill(buffer, BUFFER as u32 - 60, 0);
            let behind = [Op::Append(buffer, vec![0; more]), Op::Fill(buffer, more as u32, 0)];
            all.extend(behind.map(|op| encode(&[filled.clone(), op, Op::Signature, Op::Measure])));
        }
        let most = [Op::Fill(buffer, u32::MAX, 0), Op::Result];
        all.push(encode(&most));
    }
    for len in [LONGEST_SCRIPT - 1, LONGEST_SCRIPT, LONGEST_SCRIPT + 1, 70_000] {
        all.push([&vec![b'n'; len - 1][..], b"x"].concat());
    }
    all
}
