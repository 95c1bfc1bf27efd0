//! Generated streams: what a program on the line might send, as a list of chunks.

use crate::bad_texts;
use crate::dragging::dragged;
use crate::fields::{adorn, cast, encoded, random_bytes, Fields, ACTIONS, GOOD_INTEGERS};
use crate::framing::{damaged, fragments, framed, noise};
use crate::names;
use crate::receives;
use crate::rng::Rng;
use crate::sizes;
use crate::window::window;

/// A stream and the ids it uses.
pub struct Stream {
    pub chunks: Vec<Vec<u8>>,
    pub ids: Vec<Vec<u8>>,
}

/// How much of a stream is wanted, and how much of it is at fault.
pub struct Shape {
    /// The number of commands, about.
    pub commands: usize,
    /// Frames with a fault, in a hundred.
    pub damage: usize,
    /// Frames with noise before them, in a hundred; half as many with a text of drag and drop.
    pub noise: usize,
    /// Parts of about 4,096 bytes, in a hundred.
    pub big: usize,
}

/// A stream of one of the kinds.
pub fn stream(rng: &mut Rng, shape: &Shape) -> Stream {
    let count = rng.weighted(&[0, 30, 30, 15, 10, 5, 10]).max(1);
    let ids = cast(rng, count);
    let chunks = stream_of(rng, shape, &ids);
    Stream { chunks, ids }
}

/// The same for sessions with these ids.
pub fn stream_of(rng: &mut Rng, shape: &Shape, ids: &[Vec<u8>]) -> Vec<Vec<u8>> {
    match rng.weighted(&[32, 14, 13, 7, 7, 9, 9, 5, 16]) {
        0 => window(rng, shape, ids),
        1 => soup(rng, shape, ids),
        2 => faulty(rng, shape, ids),
        3 => torn(rng, shape, ids),
        4 => named(rng, shape, ids),
        5 => limits(rng, shape, ids),
        6 => sizes::sizes(rng, shape, ids),
        7 => rows(rng, shape, ids),
        _ => receives::receives(rng, shape, ids),
    }
}

/// A command's text as chunks: in a good frame or a damaged one, with noise or without, with a text of drag and drop or without.
pub fn emit(rng: &mut Rng, shape: &Shape, fields: Fields, chunks: &mut Vec<Vec<u8>>) {
    if rng.chance(shape.noise) {
        chunks.push(noise(rng));
    }
    if rng.chance(shape.noise / 2) {
        chunks.push(dragged(rng));
    }
    let fields = adorn(rng, fields);
    if !rng.chance(shape.damage) {
        chunks.push(framed(&fields.text()));
    } else if rng.chance(60) {
        chunks.push(framed(&bad_texts::faulty(rng, fields)));
    } else {
        chunks.push(damaged(rng, &fields.text()));
    }
}

/// The content of a part, of about 4,096 bytes so often in a hundred.
pub fn part(rng: &mut Rng, big: usize) -> Vec<u8> {
    let len = if rng.chance(big) {
        *rng.pick(&[4093, 4094, 4095, 4096, 4096, 4096, 4097, 4098])
    } else {
        let most = *rng.pick(&[1, 4, 12, 60]);
        rng.below(most)
    };
    if rng.chance(50) {
        return vec![b'A' + rng.below(26) as u8; len];
    }
    random_bytes(rng, len)
}

/// Commands drawn without regard to each other.
fn soup(rng: &mut Rng, shape: &Shape, ids: &[Vec<u8>]) -> Vec<Vec<u8>> {
    let fids = cast(rng, 3);
    let mut chunks = Vec::new();
    for _ in 0..shape.commands {
        let action = match rng.weighted(&[25, 50, 25]) {
            0 => *rng.pick(&["send", "send", "finish"]),
            1 => *rng.pick(&["file", "file", "data", "end_data"]),
            _ => *rng.pick(&ACTIONS),
        };
        let fields = any_command(rng, shape, action, ids, &fids);
        emit(rng, shape, fields, &mut chunks);
    }
    chunks
}

pub fn any_command(
    rng: &mut Rng,
    shape: &Shape,
    action: &str,
    ids: &[Vec<u8>],
    fids: &[Vec<u8>],
) -> Fields {
    let id = rng.id(ids);
    let mut fields = Fields::new(action, id);
    if rng.chance(85) {
        fields = fields.with("fid", rng.id(fids));
    }
    match action {
        "file" => return file_fields(rng, fields),
        "data" | "end_data" if rng.chance(85) => {
            let content = part(rng, shape.big);
            fields = fields.with("d", &encoded(&content));
        }
        "send" if rng.chance(40) => {
            let quiet = rng.word(&["0", "1", "2"]);
            fields = fields.with("q", quiet);
        }
        "receive" if rng.chance(85) => return receives::beginning(rng, id, 1),
        _ => {}
    }
    fields
}

fn file_fields(rng: &mut Rng, mut fields: Fields) -> Fields {
    let name = if rng.chance(80) { names::good(rng) } else { names::name(rng) };
    if rng.chance(95) {
        fields = fields.with("n", &encoded(&name));
    }
    if rng.chance(30) {
        let kind = rng.word(&["regular", "directory", "directory", "symlink", "link"]);
        fields = fields.with("ft", kind);
    }
    if rng.chance(20) {
        fields = fields.with("prm", rng.pick(&GOOD_INTEGERS).as_bytes());
    }
    if rng.chance(8) {
        fields = fields.with("tt", rng.word(&["simple", "rsync"]));
    }
    if rng.chance(25) {
        let about = rng.below(12);
        fields = fields.with("sz", sizes::size(rng, about).as_bytes());
    }
    fields
}

/// A send command, with quiet now and then.
pub fn opening(rng: &mut Rng, id: &[u8]) -> Vec<u8> {
    let mut fields = Fields::new("send", id);
    if rng.chance(15) {
        fields = fields.with("q", rng.word(&["1", "2"]));
    }
    framed(&fields.text())
}

/// Commands with a fault each, before and in an open session.
fn faulty(rng: &mut Rng, shape: &Shape, ids: &[Vec<u8>]) -> Vec<Vec<u8>> {
    let fids = cast(rng, 2);
    let mut chunks = vec![opening(rng, &ids[0])];
    for _ in 0..shape.commands {
        let action = *rng.pick(&ACTIONS);
        let fields = any_command(rng, shape, action, ids, &fids);
        let fields = adorn(rng, fields);
        chunks.push(match rng.weighted(&[80, 10, 10]) {
            0 => framed(&bad_texts::faulty(rng, fields)),
            1 => framed(&bad_texts::wild(rng)),
            _ => framed(&fields.text()),
        });
    }
    chunks
}

/// Damaged frames and pieces of frames.
fn torn(rng: &mut Rng, shape: &Shape, ids: &[Vec<u8>]) -> Vec<Vec<u8>> {
    let mut chunks = vec![opening(rng, &ids[0])];
    for _ in 0..shape.commands {
        let action = *rng.pick(&ACTIONS);
        let text = Fields::new(action, rng.id(ids)).text();
        match rng.below(3) {
            0 => chunks.push(damaged(rng, &text)),
            1 => chunks.push(noise(rng)),
            _ => {
                let count = rng.within(1, 6);
                chunks.extend(fragments(rng, count));
            }
        }
    }
    chunks
}

/// Files with odd names.
fn named(rng: &mut Rng, shape: &Shape, ids: &[Vec<u8>]) -> Vec<Vec<u8>> {
    let mut chunks = vec![opening(rng, &ids[0])];
    for i in 0..shape.commands {
        let fid = format!("f{i}");
        let name = names::name(rng);
        let mut fields = Fields::new("file", &ids[0]).with("fid", fid.as_bytes());
        fields = fields.with("n", &encoded(&name));
        if rng.chance(30) {
            fields = fields.with("ft", b"directory");
        }
        chunks.push(framed(&fields.text()));
    }
    chunks
}

/// Rows of the action table: any action for a session that was just asked for, or was not.
fn rows(rng: &mut Rng, shape: &Shape, ids: &[Vec<u8>]) -> Vec<Vec<u8>> {
    let fids = cast(rng, 1);
    let mut chunks = Vec::new();
    for _ in 0..shape.commands {
        let id = rng.id(ids);
        if rng.chance(60) {
            chunks.push(opening(rng, id));
        }
        let action = *rng.pick(&ACTIONS);
        let fields = any_command(rng, shape, action, &[id.to_vec()], &fids);
        emit(rng, shape, fields, &mut chunks);
    }
    chunks
}

/// Streams at one of the limits.
fn limits(rng: &mut Rng, shape: &Shape, ids: &[Vec<u8>]) -> Vec<Vec<u8>> {
    match rng.weighted(&[35, 30, 25, 10]) {
        0 => long_texts(rng, ids),
        1 => many_files(rng, shape, ids),
        2 => many_sessions(rng, shape),
        _ => long_file(rng, ids),
    }
}

/// A file of more bytes than 16 bits count.
fn long_file(rng: &mut Rng, ids: &[Vec<u8>]) -> Vec<Vec<u8>> {
    let of = |action: &str| Fields::new(action, &ids[0]).with("fid", b"L");
    let file = of("file").with("n", &encoded(&names::good(rng)));
    let mut chunks = vec![opening(rng, &ids[0]), framed(&file.text())];
    for _ in 0..rng.within(15, 17) {
        let content = vec![b'A' + rng.below(26) as u8; *rng.pick(&[4095, 4096, 4096])];
        chunks.push(framed(&of("data").with("d", &encoded(&content)).text()));
    }
    chunks.push(framed(&of("end_data").text()));
    chunks
}

/// Texts of about 8,192 bytes, closed, abandoned, or with a fault.
fn long_texts(rng: &mut Rng, ids: &[Vec<u8>]) -> Vec<Vec<u8>> {
    let action = *rng.pick(&["receive", "send", "status", "cancel"]);
    let mut text = Fields::new(action, &ids[0]).text();
    if rng.chance(20) {
        // No command, whatever its length.
        text.splice(
            ..5,
            rng.word(&["52;c;", "5113", "51130;", "72;", "72;", "720;"]).iter().copied(),
        );
    }
    let len = *rng.pick(&[8191, 8192, 8192, 8193, 8193, 8194, 8256, 9000, 20_000]);
    match rng.below(4) {
        // One long Base64 value, as long as the text allows.
        0 => {
            text.extend_from_slice(b";d=");
            let room = len - text.len();
            text.resize(text.len() + room / 4 * 4, b'A');
        }
        1 => {
            text.extend_from_slice(b";pw=");
            text.resize(len, b'p');
        }
        _ => {
            text.extend_from_slice(b";x=");
            text.resize(len, b'X');
        }
    }
    if rng.chance(20) {
        let place = rng.below(text.len());
        text[place] = *rng.pick(&[0x01, 0x7f, 0x20, b';', b'=']);
    }
    let frame = if rng.chance(65) { framed(&text) } else { damaged(rng, &text) };
    vec![opening(rng, &ids[0]), frame, framed(&Fields::new("receive", b"z").text())]
}

/// More files than a session has room for.
fn many_files(rng: &mut Rng, shape: &Shape, ids: &[Vec<u8>]) -> Vec<Vec<u8>> {
    let mut chunks = vec![opening(rng, &ids[0])];
    let count = rng.within(31, 40);
    for i in 0..count {
        // Few faults before the room is full, many after.
        let sound = rng.chance(if i < 32 { 98 } else { 50 });
        let fid = if sound { i } else { rng.below(count) };
        let mut fields = Fields::new("file", &ids[0]).with("fid", fid.to_string().as_bytes());
        let name = if sound { b"/A".to_vec() } else { names::name(rng) };
        fields = fields.with("n", &encoded(&name));
        let kind = if sound { rng.word(&["regular", "directory"]) } else { rng.word(&["link"]) };
        if rng.chance(50) {
            fields = fields.with("ft", kind);
        }
        if rng.chance(if i < 32 { 2 } else { 40 }) {
            fields = fields.with("sz", rng.word(&["-1", "-1", "1", "0"]));
        }
        chunks.push(framed(&fields.text()));
    }
    let last = rng.pick(&["finish", "cancel", "status"]);
    emit(rng, shape, Fields::new(last, &ids[0]), &mut chunks);
    chunks
}

/// More sessions than there is room for.
fn many_sessions(rng: &mut Rng, shape: &Shape) -> Vec<Vec<u8>> {
    let ids = cast(rng, 8);
    let mut chunks = Vec::new();
    for i in 0..shape.commands.max(10) {
        let action = match rng.weighted(&[55, 30, 15]) {
            0 => "send",
            1 => "receive",
            _ => *rng.pick(&["cancel", "finish", "status", "file"]),
        };
        let id = if i < 5 { &ids[i] } else { rng.pick(&ids) };
        let mut fields = Fields::new(action, id);
        if action == "receive" {
            fields = fields.with("sz", rng.word(&["1", "2", "32", "0", "33"]));
        }
        if rng.chance(25) {
            fields = fields.with("q", rng.word(&["0", "1", "2"]));
        }
        emit(rng, shape, fields, &mut chunks);
    }
    chunks
}
