//! Generated texts of drag and drop (order 12), and what almost is one: they bring no act of any session.

use crate::fields::random_bytes;
use crate::framing::{damaged, framed};
use crate::rng::Rng;

const MARK: &[u8] = b"72;";

/// What a text may begin with instead of the mark.
#[rustfmt::skip]
const ALMOST: [&str; 18] = [
    "72", "7", "720;", "72:", "7;", "72 ;", " 72;", "072;", "7 2;", "572;", "5172;", "5113 72;",
    "7113;", "73;", "727;", "772;", "52;", "2;",
];

const BODIES: [&[u8]; 16] = [
    b"",
    b";",
    b"t=a",
    b"t=a;text/plain text/uri-list",
    b"t=m:x=3:y=4:X=30:Y=44:o=3;text/html;v=1",
    b"t=M:m=1:x=7;a",
    b"m=1:i=9;JD",
    b"t=r:x=1;QUJD",
    b"t=r;QQ==",
    b"t=q:x=+1",
    b"72;",
    b"5113;ac=send;id=m",
    b"ac=send;id=m",
    b"ac=status;id=m;st=RUlP",
    b"t=a;caf\xc3\xa9\x00\x07\x7f\x9c\x9d\r\n",
    b";5113;",
];

/// What may stand inside such a text: frames, and what abandons or closes it.
const INSIDE: [&[u8]; 6] = [
    b"\x1b]5113;ac=receive;id=z\x1b\\",
    b"\x1b]72;t=a\x1b\\",
    b"\x1b\x1b\\",
    b"\x1b[31m",
    b"\x1b]",
    b"\x1b\\",
];

/// The text: most often with the mark, rarely about as long as it may be.
fn text(rng: &mut Rng) -> Vec<u8> {
    let mark = if rng.chance(80) { MARK } else { rng.word(&ALMOST) };
    let mut text = [mark, *rng.pick(&BODIES)].concat();
    if rng.chance(10) {
        let len = rng.below(60);
        text.extend(random_bytes(rng, len));
    }
    if rng.chance(6) {
        let len = *rng.pick(&[8191, 8192, 8192, 8193, 8193, 8194, 9000]);
        text.resize(len, *rng.pick(b"yQ;\x80"));
    }
    text
}

/// Bytes with such a text: whole, damaged, cut off, abandoned, or with something inside it.
pub fn dragged(rng: &mut Rng) -> Vec<u8> {
    let text = text(rng);
    let cut = rng.below(text.len().min(6) + 1);
    match rng.weighted(&[50, 14, 8, 14, 14]) {
        0 => framed(&text),
        1 => damaged(rng, &text),
        2 => [b"\x1b]", &text[..cut]].concat(),
        3 => [b"\x1b]", &text[..], b"\x1b", rng.word(&["x", "[0m", "]", "\x1b", ""])].concat(),
        _ => framed(&[&text[..cut], *rng.pick(&INSIDE), &text[cut..]].concat()),
    }
}

/// Texts that every cut of is tried: the page's, each almost, and commands and noise beside them.
pub fn listed() -> Vec<u8> {
    let mut all = Vec::new();
    for mark in ["72;"].iter().chain(&ALMOST) {
        for end in [&b"\x1b\\"[..], b"\x1bx", b"\x1b\x1b\\", b"\x1b"] {
            all.extend([b"\x1b]", mark.as_bytes(), end].concat());
            all.extend([b"\x1b]", mark.as_bytes(), b"t=a;x", end].concat());
        }
        all.extend(framed(b"5113;ac=status;id=m;st=AQID"));
    }
    all
}

/// A text of this length with the mark. A byte 8,192 places on is another one.
pub fn long(len: usize) -> Vec<u8> {
    let mut text = MARK.to_vec();
    text.extend((text.len()..len).map(|i| b'A' + (i % 23) as u8));
    text
}

/// How texts of drag and drop end in a recording.
pub const ENDS: [&str; 4] = ["whole", "too long", "abandoned", "unfinished"];

/// How each text of drag and drop in a recording ends: a `1B 5D` always opens a text, wherever it stands.
pub fn ends(recording: &[u8]) -> Vec<&'static str> {
    let opener = [b"\x1b]", MARK].concat();
    let starts = recording.windows(opener.len()).enumerate();
    let starts = starts.filter_map(|(at, part)| (part == opener).then_some(at + 2));
    let end = |start: usize| {
        let rest = &recording[start..];
        let len = rest.iter().position(|&byte| byte == 0x1b);
        match len.and_then(|len| Some((len, *rest.get(len + 1)?))) {
            Some((len, b'\\')) => ENDS[usize::from(len > 8192)],
            Some(_) => ENDS[2],
            None => ENDS[3],
        }
    };
    starts.map(end).collect()
}

#[cfg(test)]
mod tests {
    use super::*;
    use reference::console::Console;
    use reference::receiver::{Refusal, Told};
    use reference::script::Op;

    /// Fed to the reference, as many are told as stand there, and each kind comes up.
    #[test]
    fn the_ends_are_what_is_told() {
        let mut counts = [0; ENDS.len()];
        for seed in 0..3000 {
            let bytes = dragged(&mut Rng::new(seed));
            let ends = ends(&bytes);
            let count = |of: &str| ends.iter().filter(|end| **end == of).count();
            let (mut console, mut told) = (Console::default(), [0; 2]);
            let mut at = 0;
            while at < bytes.len() {
                let answer = console.apply(&Op::Feed(bytes[at..].to_vec())).unwrap();
                at += answer.consumed;
                told[0] += usize::from(answer.told == Told::DragDrop);
                told[1] += usize::from(answer.refusal == Some(Refusal::TooLong));
            }
            assert_eq!([count(ENDS[0]), count(ENDS[1])], told, "{seed}");
            ENDS.iter().zip(&mut counts).for_each(|(end, sum)| *sum += count(end));
        }
        assert!(counts.iter().all(|&sum| sum > 20), "{counts:?}");
    }
}
