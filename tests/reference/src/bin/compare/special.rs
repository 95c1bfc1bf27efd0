//! Cases that no seed makes, or few: scripts at the length limit, scripts that are none, long texts in pieces, every listed
//! value, the numbers of a full session, receive sessions, tiny recordings, every edge of UTF-8, declared lengths met and missed by
//! one, a long file.

use crate::bad_values;
use crate::dragging;
use crate::fields::{encoded, Fields};
use crate::framing::framed;
use crate::judge::{Case, Tally, RECEIVER, REPLAYER};
use crate::{receive_special, sequences, sizes};
use reference::console::{Console, LONGEST_SCRIPT};
use reference::receiver::Place;
use reference::script::{encode, Buffer, Op};

/// Judges them all, each in a run of its own.
pub fn judge(tally: &mut Tally) {
    for case in scripts() {
        tally.scripts(&RECEIVER, vec![case]);
    }
    for case in recordings() {
        tally.recording(&REPLAYER, &case, step(&case));
    }
}

/// The size of the pieces in which a recording is written: one byte, more only where that takes long.
pub fn step(case: &Case) -> usize {
    1 + case.input.len() / 10_000
}

pub fn named(kind: &str, inputs: Vec<Vec<u8>>) -> Vec<Case> {
    let inputs = inputs.into_iter().enumerate();
    inputs.map(|(i, input)| Case { name: format!("special-{kind}-{i}"), input }).collect()
}

/// Scripts at the length limit, scripts that are none, long texts, one of values, one of numbers, those of receive sessions; only
/// to be run alone.
pub fn scripts() -> Vec<Case> {
    #[rustfmt::skip]
    let faults = [
        &b""[..], b"Z", b"N", b"\x00", b"\xff", b"\n", b"kZ", b"ke\x00", b"ke\x05", b"ke\xff", b"te",
        b"f", b"f\x00", b"f\x01\x00", b"f\x02\x00a", b"a", b"a\x01", b"d\x02m", b"x", b"c", b"c\x00",
        b"s\x01", b"r\x7b", b"t", b"tkn", b"kkt", b"f\x00\x00t", b"a\x00d\x00x\x00",
        b"y", b"y\x01", b"y\x02m", b"ty\xff", b"y\x00", b"y\x01my\x01mt", b"Y\x01m",
    ];
    let mut all: Vec<Vec<u8>> = faults.iter().map(|bytes| bytes.to_vec()).collect();
    all.extend([LONGEST_SCRIPT - 1, LONGEST_SCRIPT, LONGEST_SCRIPT + 1, 70_000].map(long));
    all.extend([8191, 8192, 8193, 8300, 20_000].map(|len| in_pieces(&command(len))));
    all.extend([8191, 8192, 8193, 8300, 20_000].map(|len| in_pieces(&dragging::long(len))));
    all.extend([1, 2, 3, 4, 5, 7, 11, 300].map(dragged));
    all.push(dragged_while_owed());
    all.extend([values(), full_room(), short_replies()]);
    all.extend(receive_special::scripts());
    named("script", all)
}

/// A command text of the given length. A byte 8,192 places on is another one.
fn command(len: usize) -> Vec<u8> {
    let mut text = Fields::new("receive", b"z").with("x", b"").text();
    text.extend((text.len()..len).map(|i| b'A' + (i % 23) as u8));
    text
}

/// The text, fed in pieces of several sizes.
fn in_pieces(text: &[u8]) -> Vec<u8> {
    let frame = framed(text);
    let pieces = [8195, 4096, 1000].iter().flat_map(|&step| frame.chunks(step));
    let ops: Vec<Op> = pieces.flat_map(|piece| [Op::Feed(piece.to_vec()), Op::Text]).collect();
    encode(&ops)
}

/// Texts of drag and drop and what almost is one, in pieces of this size fed until consumed, the text behind each report.
fn dragged(step: usize) -> Vec<u8> {
    let mut console = Console::default();
    let mut ops = Vec::new();
    for piece in dragging::listed().chunks(step) {
        let mut rest = piece.to_vec();
        while !rest.is_empty() {
            let op = Op::Feed(rest.clone());
            let answer = console.apply(&op).unwrap_or_default();
            ops.push(op);
            if answer.text != Place::Nowhere {
                ops.push(Op::Text);
            }
            rest.drain(..answer.consumed.max(1));
        }
    }
    encode(&ops)
}

/// Such a text while each kind of answer is owed, and behind it; a session is looked at after each.
fn dragged_while_owed() -> Vec<u8> {
    let drag = || Op::Feed(framed(b"72;t=a;x"));
    let of = |action: &str| Op::Feed(framed(&Fields::new(action, b"m").with("fid", b"a").text()));
    let file = Fields::new("file", b"m").with("fid", b"a").with("n", b"L256");
    let data = Fields::new("data", b"m").with("fid", b"a").with("d", b"YWJj");
    let steps = [
        Op::Feed(framed(&Fields::new("send", b"m").text())),
        Op::Allow(b"m".to_vec()),
        Op::Feed(framed(&file.text())),
        Op::Done,
        Op::Feed(framed(&data.text())),
        Op::Done,
        of("end_data"),
        Op::Done,
        of("finish"),
        Op::Failed(2),
    ];
    let with = |op: Op| [op, drag(), Op::Text, Op::Numbers(b"m".to_vec())];
    encode(&steps.into_iter().flat_map(with).collect::<Vec<Op>>())
}

/// Feeds a command with each listed value, most often behind a `st` that is accepted.
fn values() -> Vec<u8> {
    let text = |(key, value): (&str, Vec<u8>)| {
        let mut fields = Fields::new("status", b"m").with("pr", b"").with("st", b"AQID");
        fields.0.retain(|(known, _)| known != key);
        fields.with(key, &value).text()
    };
    let ops: Vec<Op> =
        bad_values::listed().into_iter().map(|field| Op::Feed(framed(&text(field)))).collect();
    encode(&ops)
}

/// Looks at the numbers of a session after each of its calls: 32 files started, a 33rd, some closed and some failed, then the
/// place used again.
fn full_room() -> Vec<u8> {
    let of = |action: &str| Fields::new(action, b"m");
    let look = || Op::Numbers(b"m".to_vec());
    let with = |fields: Fields, call: Op| [Op::Feed(framed(&fields.text())), look(), call, look()];
    let mut ops = with(of("send"), Op::Allow(b"m".to_vec())).to_vec();
    let fids: Vec<String> = (0..33).map(|i| i.to_string()).collect();
    for fid in &fids {
        ops.extend(with(of("file").with("fid", fid.as_bytes()).with("n", b"L256"), Op::Done));
    }
    for (fid, call) in fids.iter().zip([Op::Done, Op::Failed(2), Op::Done]) {
        let part = |action: &str| of(action).with("fid", fid.as_bytes()).with("d", b"YWJj");
        ops.extend(with(part("data"), Op::Done));
        ops.extend(with(part("end_data"), call));
    }
    let large = of("data").with("fid", b"9").with("d", &encoded(&[b'x'; 4097]));
    ops.extend(with(large, Op::Text));
    ops.extend(with(of("finish"), Op::Text));
    ops.extend(with(of("send"), Op::Allow(b"m".to_vec())));
    ops.extend(with(of("finish"), Op::Done));
    encode(&ops)
}

/// Allow and deny with a reply buffer that is too short, though the reply would fit in most of them, then again.
fn short_replies() -> Vec<u8> {
    let id = || b"m".to_vec();
    let with = |call: Op, len| {
        let send = Op::Feed(framed(&Fields::new("send", b"m").text()));
        let (short, whole) = (Op::Lend(Buffer::Reply, len), Op::Lend(Buffer::Reply, 124));
        [Op::Anew, send, short, call.clone(), whole, call]
    };
    let lens = [0, 30, 60, 100, 123];
    let ops = lens.iter().flat_map(|&len| [with(Op::Allow(id()), len), with(Op::Deny(id()), len)]);
    encode(&ops.flatten().collect::<Vec<Op>>())
}

/// A script of the given length: one long feed of noise, then starts anew, then two calls.
fn long(len: usize) -> Vec<u8> {
    let mut script = vec![b'f', 0x00, 0xf0];
    script.resize(3 + 0xf000, b'x');
    script.resize(len - 2, b'n');
    script.extend_from_slice(b"kt");
    script
}

/// Tiny recordings, document 01's example cut off at many places, files with every edge of UTF-8 in their names, files that declare
/// a length, long ones, and receive sessions.
pub fn recordings() -> Vec<Case> {
    let example: &[u8] = b"\x1b]5113;ac=send;id=m\x1b\\\x1b]5113;ac=file;id=m;fid=a;n=L256\x1b\\\
        \x1b]5113;ac=data;id=m;fid=a;d=YWJj\x1b\\\x1b]5113;ac=end_data;id=m;fid=a\x1b\\\
        \x1b]5113;ac=finish;id=m\x1b\\";
    let mut all: Vec<Vec<u8>> = [&b""[..], b"\x1b", b"\x1b]", b"\x1b]5113;", b"x", example]
        .iter()
        .map(|bytes| bytes.to_vec())
        .collect();
    // Every cut of the example, as a recording that ends there.
    all.extend((1..example.len()).step_by(7).map(|len| example[..len].to_vec()));
    all.extend([("/", ""), ("/", "/z"), ("~/a", ""), ("~/a", "/z")].map(edges));
    all.push(sizes::listed(&sizes::ODD, 2));
    all.extend([1, 3, 4096, 4097].map(|total| sizes::listed(&[&total.to_string()], total)));
    all.push(sizes::long());
    all.push(dragging::listed());
    // The example with such a text before each of its frames.
    all.extend(
        [
            &b"\x1b]72;t=a\x1b\\"[..],
            b"\x1b]72;",
            b"\x1b]72;t=a\x1bx",
            &framed(&dragging::long(8193)),
        ]
        .map(|text| {
            example
                .split_inclusive(|&byte| byte == b'\\')
                .flat_map(|frame| [text, frame].concat())
                .collect()
        }),
    );
    all.extend(receive_special::recordings());
    named("recording", all)
}

/// A file for each listed sequence, in this place of a name. The session begins anew before its 32 files are full.
fn edges((before, behind): (&str, &str)) -> Vec<u8> {
    let mut recording = Vec::new();
    for (i, sequence) in sequences::listed().enumerate() {
        if i % 32 == 0 {
            recording.extend(framed(&Fields::new("cancel", b"m").text()));
            recording.extend(framed(&Fields::new("send", b"m").text()));
        }
        let name = [before.as_bytes(), sequence, behind.as_bytes()].concat();
        let file = Fields::new("file", b"m").with("fid", i.to_string().as_bytes());
        recording.extend(framed(&file.with("n", &encoded(&name)).text()));
    }
    recording
}
