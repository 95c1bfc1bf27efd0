//! Scripts for a sender that no seed makes, or few: order 1's examples, each call and each status at each stage, full room, texts
//! and names about as long as they may be, every listed value, scripts that are none.

use crate::bad_values;
use crate::dragging;
use crate::fields::Fields;
use crate::framing::framed;
use crate::judge::{Case, Tally, SENDER};
use crate::sender_replies::WORDS;
use crate::special::named;
use reference::console::LONGEST_SCRIPT;
use reference::notation::sender_call;
use reference::sender::console::{Answer, Console};
use reference::sender::script::{encode, Buffer, Op};

/// Calls that lead to a stage, as the page's items.
const SETUPS: [&str; 14] = [
    "",
    "snd m",
    "snd m | hear EPERM",
    "snd m | hear OK",
    "snd m | hear OK | fin",
    "snd m | hear OK | file a /nz 3",
    "snd m | hear OK | file a /nz 4 | data abc",
    "snd m | hear OK | file a /nz 4 | end abc",
    "snd m | hear OK | file a /nz | end abc | hear OK/a=3",
    "snd m | hear OK | file a /nz | data abc | hear EIO/a",
    "snd m | hear OK | file a /nz | data abc | hear EIO",
    "snd m | hear OK | file a /nz | end abc | fin",
    "snd m | hear OK | file aa /nz | end | file a /nz | data abc",
    // An empty file id.
    "snd m | hear OK | file  /nz | end abc",
];

const CALLS: [&str; 29] = [
    "snd",
    "snd a;b",
    "snd {i*32}",
    "snd {i*33}",
    "snd {i*33}!",
    "snd m",
    "snd k",
    "file a /nz",
    "file b /nz",
    "file b {/*30} 1",
    "file {f*32} /nz",
    "file {f*33} /nz",
    "file {f*33}! /nz",
    "file a;b /nz",
    "file b /nz 9223372036854775807",
    "file b /nz 9223372036854775808",
    "file b; /nz 18446744073709551615",
    "file  /nz",
    "file b ",
    "file b {/*6200}",
    "file b {/*6200} 9223372036854775808",
    "data",
    "data x",
    "end",
    "end xyz",
    "data {x*4096}",
    "data {x*4097}",
    "end {x*4097}",
    "fin",
];

const SIZES: [&str; 11] = [
    "0",
    "-0",
    "1",
    "2",
    "3",
    "003",
    "4",
    "-3",
    "8",
    "9223372036854775807",
    "-9223372036854775808",
];

/// Judges them all, each in a run of its own.
pub fn judge(tally: &mut Tally) {
    for case in scripts() {
        tally.scripts(&SENDER, vec![case]);
    }
}

pub fn scripts() -> Vec<Case> {
    let setups = || SETUPS.iter().copied();
    let mut all: Vec<Vec<u8>> = setups().map(every_call).collect();
    all.extend(setups().map(every_status));
    all.extend([examples(), values(), places(), full_room()]);
    all.extend([(1, 1), (1, 2), (1, 3), (32, 32)].map(long_names));
    all.extend([8191, 8192, 8193, 8300].map(|len| in_pieces(&status(len))));
    all.extend([8191, 8192, 8193, 8300].map(|len| in_pieces(&dragging::long(len))));
    all.extend([1, 2, 3, 4, 5, 7, 11, 300].map(dragged));
    all.extend(bad());
    all.extend([LONGEST_SCRIPT - 1, LONGEST_SCRIPT, LONGEST_SCRIPT + 1, 70_000].map(long));
    named("sender", all)
}

/// The operations of items, each piece heard until it is consumed.
fn ops(items: &str) -> Vec<Op> {
    let mut console = Console::default();
    let mut ops = Vec::new();
    for item in items.split(" | ").filter(|item| !item.is_empty()) {
        let mut op = sender_call(item);
        loop {
            let answer = console.apply(&op);
            ops.push(op.clone());
            match (&mut op, answer) {
                (Op::Hear(piece), Some(Answer::Heard(heard))) if heard.consumed < piece.len() => {
                    piece.drain(..heard.consumed);
                }
                _ => break,
            }
        }
    }
    ops
}

fn anew(setup: &str, then: &[Op]) -> Vec<Op> {
    [&[Op::Anew], &ops(setup)[..], then].concat()
}

/// Order 1's examples, with the text of the last report behind each.
fn examples() -> Vec<u8> {
    let page = include_str!("../../../tests/order01.txt").lines();
    let items = page.filter_map(|line| Some(line.strip_prefix("call ")?.split_once(" ==> ")?.0));
    let ops: Vec<Op> = items.flat_map(|items| anew(items, &[Op::Text])).collect();
    encode(&ops)
}

/// Each call at this stage: with a buffer that is long enough, and with one that is not, then again.
fn every_call(setup: &str) -> Vec<u8> {
    let with = |call: &&str| {
        let call = sender_call(call);
        let lent = |len| Op::Lend(Buffer::Out, len);
        let small = !matches!(&call, Op::Piece(bytes) | Op::Last(bytes) if bytes.len() > 4000);
        let short = if small { vec![lent(8195), call.clone()] } else { vec![] };
        anew(setup, &[&short[..], &[lent(8196), call]].concat())
    };
    encode(&CALLS.iter().flat_map(with).collect::<Vec<Op>>())
}

/// Each status at this stage, of the session, of the file a and of one that is not there.
fn every_status(setup: &str) -> Vec<u8> {
    let words = WORDS
        .iter()
        .flat_map(|word| ["", "/a", "/aa", "/b"].map(|fid| format!("hear {word}{fid}")));
    let sizes = SIZES.iter().flat_map(|size| {
        ["OK", "OK/a", "PROGRESS/a", "EIO/a"].map(|word| format!("hear {word}={size}"))
    });
    let with = |hear: String| anew(setup, &[sender_call(&hear)]);
    encode(&words.chain(sizes).flat_map(with).collect::<Vec<Op>>())
}

/// 33 files of which each is refused once, an id that is repeated, statuses of each, and the end.
fn full_room() -> Vec<u8> {
    let mut items = vec!["snd m".to_string(), "hear OK".into()];
    for i in 0..33 {
        items.push(format!("file {i}! /nz"));
        items.push(format!("file {i} /nz {i}"));
        items.extend(["file 31 /nz", "file 99 /nz"].map(String::from));
        items.push(format!("end {{x*{i}}}"));
    }
    items.extend((0..33).map(|i| format!("hear OK/{i}={}", i % 30)));
    items.extend((0..33).step_by(3).map(|i| format!("hear EIO/{i}")));
    items.extend(["fin", "file 99 /nz", "file 0 /nz", "hear EIO", "file 99 /nz"].map(String::from));
    encode(&anew(&items.join(" | "), &[]))
}

/// Names for which the text is about as long as it may be, without a size and with one.
fn long_names((id, fid): (usize, usize)) -> Vec<u8> {
    let before = "5113;ac=file;id=;fid=;n=".len() + id + fid;
    let mut ops = Vec::new();
    for (size, len) in [(0, 0), (7, ";sz=7".len()), (i64::MAX as u64, ";sz=".len() + 19)] {
        let most = (8192 - before - len) / 4 * 3;
        for name in [most - 1, most, most + 1] {
            let status = Fields::new("status", &vec![b'm'; id]).with("st", b"T0s=").text();
            let name = vec![b'/'; name];
            ops.extend([Op::Anew, Op::Send(vec![b'm'; id]), Op::Hear(framed(&status))]);
            ops.extend([Op::File { fid: vec![b'f'; fid], name, size }, Op::Last(vec![0])]);
        }
    }
    encode(&ops)
}

/// A status of the given length.
fn status(len: usize) -> Vec<u8> {
    let mut text = Fields::new("status", b"m").with("st", b"T0s=").with("x", b"").text();
    text.extend((text.len()..len).map(|i| b'A' + (i % 23) as u8));
    text
}

/// Texts of drag and drop and what almost is one, heard by an open session in pieces of this size, the text behind each.
fn dragged(step: usize) -> Vec<u8> {
    let mut items = "snd m | hear OK | file a /nz 3 | data ab".to_string();
    for piece in dragging::listed().chunks(step) {
        let notation: String = piece.iter().map(|byte| format!("<{byte:02X}>")).collect();
        items += &format!(" | raw {notation}");
    }
    let with_text = |op: Op| match op {
        Op::Hear(_) => vec![op, Op::Text],
        _ => vec![op],
    };
    encode(&anew(&items, &[]).into_iter().flat_map(with_text).collect::<Vec<Op>>())
}

/// The text, heard in pieces of several sizes.
fn in_pieces(text: &[u8]) -> Vec<u8> {
    let frame = framed(text);
    let pieces = [8195, 4096, 1000].iter().flat_map(|&step| frame.chunks(step));
    let heard = pieces.flat_map(|piece| [Op::Hear(piece.to_vec()), Op::Text]);
    encode(&[Op::Send(b"m".to_vec())].into_iter().chain(heard).collect::<Vec<Op>>())
}

/// A status with each listed value, most often before a word that stops the session.
fn values() -> Vec<u8> {
    let text = |(key, value): (&str, Vec<u8>)| {
        let mut fields = Fields::new("status", b"m").with("n", b"L256").with("st", b"AQID");
        fields.0.retain(|(known, _)| known != key);
        fields.with(key, &value).text()
    };
    let hear = |field| anew("snd m", &[Op::Hear(framed(&text(field)))]);
    encode(&bad_values::listed().into_iter().flat_map(hear).collect::<Vec<Op>>())
}

/// Statuses that stop, their `st` behind and before other values, empty, absent and twice.
fn places() -> Vec<u8> {
    const FIELDS: [&str; 9] = [
        "st=RUlP;n=L256",
        "n=L256;st=RUlP",
        "d=YQ==;n=L256;st=RUlP",
        "n=;st=RUlP;d=YQ==",
        "n=L256;st=",
        "d=YWI=;st=;n=L256",
        "n=L256",
        "st=;d=YWI=",
        "n=L256;st=RUlP;st=RUlP",
    ];
    let hear =
        |text: String| anew("snd m | hear OK | file a /nz", &[Op::Hear(framed(text.as_bytes()))]);
    let each = |fields: &&str| {
        let of = |fid: &str| format!("5113;ac=status;id=m{fid};{fields}");
        [hear(of("")), hear(of(";fid=a"))].concat()
    };
    encode(&FIELDS.iter().flat_map(each).collect::<Vec<Op>>())
}

/// Scripts that are none, and short ones.
fn bad() -> Vec<Vec<u8>> {
    #[rustfmt::skip]
    let all = [
        &b""[..], b"z", b"S", b"\x00", b"\xff", b"\n", b"a", b"d", b"k", b"x", b"y", b"r", b"tz", b"tt", b"ne",
        b"s", b"s\x01", b"s\x02m", b"s\x00", b"f", b"f\x01", b"f\x01a", b"f\x01a\x00", b"f\x01a\x00\x00",
        b"f\x01a\x00\x00\x00\x00\x00\x00\x00\x00\x00", b"f\x01a\x00\x00\x00\x00\x00\x00\x00\x00\x00\x00",
        b"f\x01a\x01\x00\x00\x00\x00\x00\x00\x00\x00\x00", b"p", b"p\x00", b"p\x01\x00", b"p\x00\x00", b"l", b"l\x01",
        b"l\x00\x00", b"e", b"ee", b"h", b"h\x00", b"h\x02\x00a", b"h\x00\x00t", b"b", b"b\x00", b"c\x01", b"w", b"w\x01",
        b"b\x00\x00e", b"c\x00\x00h\x00\x00", b"w\xff\xffh\x00\x00",
    ];
    all.iter().map(|bytes| bytes.to_vec()).collect()
}

/// A script of the given length: one long hear of noise, then starts anew, then two operations.
fn long(len: usize) -> Vec<u8> {
    let mut script = vec![b'h', 0x00, 0xf0];
    script.resize(3 + 0xf000, b'x');
    script.resize(len - 2, b'n');
    script.extend_from_slice(b"et");
    script
}

#[cfg(test)]
mod tests {
    use super::*;
    use reference::script::Ops;

    /// All but the two that are there for it; those that call something are proper scripts.
    #[test]
    fn scripts_are_within_their_length() {
        let all = scripts();
        let long = all.iter().filter(|case| case.input.len() > LONGEST_SCRIPT);
        assert_eq!(long.count(), 2);
        let proper = |case: &Case| Ops::<Op>::new(&case.input).all(|op| op.is_ok());
        assert!(all[..SETUPS.len() * 2 + 4].iter().all(proper));
    }
}
