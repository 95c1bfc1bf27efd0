//! Generated names, good and bad.

use crate::fields::random_bytes;
use crate::rng::Rng;
use crate::sequences;

const PLAIN: [&[u8]; 26] = [
    b"/A",
    b"~/B",
    b"/",
    b"~/",
    b"//",
    b"~",
    b"",
    b"a",
    b"~a/b",
    b"/..",
    b"~/..",
    b"/../x",
    b"/a/..",
    b"/a/../b",
    b"/a/..b",
    b"/a/b..",
    b"/...",
    b"/.",
    b"/./..",
    b"/x//y",
    b"..",
    b"../a",
    b"/a\0b",
    b"\0/",
    b"/\x01\x7f",
    b"~/a b",
];

/// Any name, about half of them good.
pub fn name(rng: &mut Rng) -> Vec<u8> {
    match rng.weighted(&[25, 45, 13, 7, 7, 3]) {
        0 => rng.pick(&PLAIN).to_vec(),
        1 => with_sequence(rng),
        2 => {
            let len = rng.within(253, 258);
            with_component(rng, len)
        }
        3 => long_slashes(rng),
        4 => long_components(rng),
        _ => {
            let len = rng.below(20);
            random_bytes(rng, len)
        }
    }
}

/// A short good name.
pub fn good(rng: &mut Rng) -> Vec<u8> {
    let letter = b'A' + rng.below(26) as u8;
    match rng.below(4) {
        0 => vec![b'/', letter],
        1 => vec![b'~', b'/', letter],
        2 => [b"/tmp/dir/", &[letter][..]].concat(),
        _ => [b"/\xc3\xa9\xe2\x82\xac/", &[letter][..]].concat(),
    }
}

/// One sequence that may be bad, alone or among good ones: so only it decides.
fn with_sequence(rng: &mut Rng) -> Vec<u8> {
    let mut name = rng.word(&["/", "~/", "/a/", "/..", "/x", "~/a"]).to_vec();
    for _ in 0..rng.weighted(&[60, 30, 10]) {
        name.extend_from_slice(sequences::good(rng));
    }
    name.extend(sequences::any(rng));
    if rng.chance(30) {
        name.extend_from_slice(sequences::good(rng));
    }
    if rng.chance(40) {
        name.extend_from_slice(rng.word(&["/", "/b", "z", "/z", "/.."]));
    }
    name
}

/// Bytes count, not characters.
fn with_component(rng: &mut Rng, len: usize) -> Vec<u8> {
    let mut name = rng.word(&["/", "~/", "/a/"]).to_vec();
    let character = rng.word(&["x", "x", "\u{e9}", "\u{20ac}"]);
    let component = character.repeat(len / character.len());
    name.extend_from_slice(&component);
    name.resize(name.len() + len - component.len(), b'x');
    name.extend_from_slice(rng.word(&["", "/", "/b"]));
    name
}

fn long_slashes(rng: &mut Rng) -> Vec<u8> {
    vec![b'/'; rng.within(4094, 4098)]
}

fn long_components(rng: &mut Rng) -> Vec<u8> {
    let len = rng.within(4094, 4098);
    (0..len).map(|i| if i % 256 == 0 { b'/' } else { b'y' }).collect()
}
