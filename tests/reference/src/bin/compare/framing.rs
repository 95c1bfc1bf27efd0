//! Generated frames: openers, closers, noise between them, and their damage.

use crate::dragging::dragged;
use crate::fields::random_bytes;
use crate::rng::Rng;

/// The text in its frame.
pub fn framed(text: &[u8]) -> Vec<u8> {
    [b"\x1b]", text, b"\x1b\\"].concat()
}

/// The text in a frame that has a fault.
pub fn damaged(rng: &mut Rng, text: &[u8]) -> Vec<u8> {
    let cut = rng.below(text.len() + 1);
    let (head, tail) = text.split_at(cut);
    match rng.below(9) {
        0 => [b"\x1b]", text, *rng.pick(&CLOSERS)].concat(),
        1 => [*rng.pick(&OPENERS), text, b"\x1b\\"].concat(),
        2 => [b"\x1b]", head, b"\x1b", tail, b"\x1b\\"].concat(),
        3 => [b"\x1b]", head, *rng.pick(&INSIDE), tail, b"\x1b\\"].concat(),
        // Cut off; the next frame's opener abandons it.
        4 => [b"\x1b]", head].concat(),
        5 => [b"\x1b]", text, b"\x1b"].concat(),
        6 => [b"\x1b]", head, b"\x1b]", text, b"\x1b\\"].concat(),
        7 => [text, b"\x1b\\"].concat(),
        _ => [b"\x1b]", text, b"\x1b", rng.word(&["[", "x", "]", "\x1b"])].concat(),
    }
}

const CLOSERS: [&[u8]; 9] = [
    b"\x07",
    b"\x9c",
    b"\x1b\x1b\\",
    b"\\",
    b"",
    b"\x1b",
    b"\x1b\x9c",
    b"\x1b\x1b\x1b\\",
    b"\x1b\x07",
];

const OPENERS: [&[u8]; 8] =
    [b"\x9d", b"]", b"", b"\x1b\x1b]", b"\x1b[", b"\x1b]\x1b]", b"\x1b]]", b"\x1bP"];

const INSIDE: [&[u8]; 9] = [
    b"\x1b[31m",
    b"\x1b]",
    b"\x1b\x1b]",
    b"\x07",
    b"\x1b]0;t\x07",
    b"\x1b\x1b",
    b"\x9c",
    b"\x1b\\",
    b"\x1b]72;t=a\x1b\\",
];

const NOISE: [&[u8]; 24] = [
    b"\x1b[31m",
    b"\x1b[0m\r\n",
    b"\x1b]0;title\x07",
    b"\x1b]0;title\x1b\\",
    b"\x1b",
    b"\x1b\\",
    b"\x1b]",
    b"\x1b]\x1b\\",
    b"]5113;ac=send;id=m",
    b"\\",
    b"\x1b\x1b",
    b"\x1b]5113\x1b\\",
    b"\x1b]51",
    b"\x1b]5113\x1b",
    b"\x1b]52;c;AAAA\x1b\\",
    b"\x9d5113;ac=send;id=m\x9c",
    b"\x1bP1$r\x1b\\",
    b"\x1b]51134;x\x1b\\",
    b"\x1b]5113;\x1b\\",
    b"\x1b]5113;\x1bx",
    b"\x1b]5112;ac=send;id=m\x1b\\",
    b"caf\xc3\xa9\r\n",
    b"\x1b]511\x1b]",
    b"\x1b]5113",
];

/// Bytes that may stand between frames.
pub fn noise(rng: &mut Rng) -> Vec<u8> {
    match rng.below(8) {
        0 => {
            let len = rng.below(40);
            random_bytes(rng, len)
        }
        1 => b"plain screen text ".to_vec(),
        2 | 3 => dragged(rng),
        _ => rng.pick(&NOISE).to_vec(),
    }
}

const FRAGMENTS: [&[u8]; 28] = [
    b"\x1b",
    b"\x1b",
    b"]",
    b"\\",
    b"\x1b]",
    b"\x1b]",
    b"\x1b\\",
    b"5113;",
    b"\x1b]5113;",
    b"5",
    b"51",
    b"5113",
    b";",
    b"ac=send;id=m",
    b"ac=receive;id=z",
    b"\x07",
    b"x",
    b"=",
    b"\x9d",
    b"\x9c",
    b"\x1b]5113;ac=receive;id=z\x1b\\",
    b"\x1b]5113;ac=status;id=m\x1b\\",
    b"7",
    b"2",
    b"72",
    b"72;",
    b"\x1b]72;",
    b"\x1b]72;t=a\x1b\\",
];

/// A run of pieces of frames in no order.
pub fn fragments(rng: &mut Rng, count: usize) -> Vec<Vec<u8>> {
    (0..count).map(|_| rng.pick(&FRAGMENTS).to_vec()).collect()
}
