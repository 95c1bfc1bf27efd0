//! Generated replies to a sender: the right ones, statuses of any kind, echoes and other commands.

use crate::fields::{encoded, safe, Fields, ACTIONS, GOOD_INTEGERS};
use crate::rng::Rng;

/// The three words that stop nothing, words that begin or end like them, and others.
#[rustfmt::skip]
pub const WORDS: [&str; 36] = [
    "OK", "STARTED", "PROGRESS", "CANCELED", "EPERM", "EIO", "EINVAL", "ENOENT", "ENOSPC", "EEXIST", "EMFILE", "EFBIG",
    "EBUSY", "ENOTSUP", "EPERM:User refused the transfer", "OK:fine", "OK ", " OK", "ok", "O", "K", "OKOK", "OK\0",
    "STARTE", "STARTEDX", "STARTED:", "started", "TARTED", "PROGRES", "PROGRESSS", "PROGRESS:1", "progress", "", "\0", "\u{ff}", "-",
];

/// What a reply may speak of.
pub struct Topic {
    pub id: Vec<u8>,
    /// The file that was spoken of last, and all of them.
    pub fid: Vec<u8>,
    pub fids: Vec<Vec<u8>>,
    /// The bytes sent of that file, the size that it declared, and the length of its last piece.
    pub sent: u64,
    pub declared: u64,
    pub piece: usize,
}

fn status(id: &[u8], fid: &[u8], size: &str, word: &[u8]) -> Fields {
    let mut fields = Fields::new("status", id);
    for (key, value) in [("fid", fid), ("sz", size.as_bytes())] {
        if !value.is_empty() {
            fields = fields.with(key, value);
        }
    }
    fields.with("st", &encoded(word))
}

/// What the console's receiver answers to a command of this action; nothing to finish.
pub fn right(topic: &Topic, action: &str) -> Option<Fields> {
    let sent = if topic.sent == 0 { String::new() } else { topic.sent.to_string() };
    let (id, fid) = (&topic.id, &topic.fid);
    match action {
        "send" => Some(status(id, b"", "", b"OK")),
        "file" => Some(status(id, fid, "", b"STARTED")),
        "data" => Some(status(id, fid, &sent, b"PROGRESS")),
        "end_data" => Some(status(id, fid, &sent, b"OK")),
        _ => None,
    }
}

/// A status of this session, or nearly so.
pub fn any(rng: &mut Rng, topic: &Topic) -> Fields {
    let id = if rng.chance(10) { near(rng, &topic.id) } else { topic.id.clone() };
    let fid = if rng.chance(65) { any_fid(rng, topic) } else { Vec::new() };
    let size = if rng.chance(70) { any_size(rng, topic) } else { String::new() };
    let word = any_word(rng);
    let mut fields = status(&id, &fid, &size, word);
    if rng.chance(5) {
        fields.0.retain(|(key, _)| key != "st");
    }
    if fid.is_empty() && rng.chance(10) {
        fields = fields.with("fid", b"");
    }
    fields
}

/// Most often one of the three; a file's OK is what has most to be compared.
fn any_word(rng: &mut Rng) -> &'static [u8] {
    match rng.weighted(&[40, 10, 10, 40]) {
        0 => b"OK",
        1 => b"STARTED",
        2 => b"PROGRESS",
        _ => rng.word(&WORDS),
    }
}

/// The file that was spoken of last, another one, or one that differs in a byte.
fn any_fid(rng: &mut Rng, topic: &Topic) -> Vec<u8> {
    match rng.weighted(&[50, 35, 10, 5]) {
        1 if !topic.fids.is_empty() => rng.id(&topic.fids).to_vec(),
        2 => near(rng, &topic.fid),
        3 => safe(rng, 3),
        _ => topic.fid.clone(),
    }
}

/// An id that is not the given one: longer, shorter, another letter or another case.
pub fn near(rng: &mut Rng, id: &[u8]) -> Vec<u8> {
    let mut near = id.to_vec();
    let Some(last) = near.last_mut().filter(|_| rng.chance(75)) else {
        near.push(*rng.pick(b"m0_"));
        near.truncate(32);
        return near;
    };
    match rng.below(3) {
        0 => *last = if *last == b'a' { b'b' } else { b'a' },
        1 => *last ^= if last.is_ascii_alphabetic() { 0x20 } else { 0 },
        _ => near.truncate(near.len() - 1),
    }
    near
}

/// Sizes about what was sent, and what a sender might wrongly take for it.
fn any_size(rng: &mut Rng, topic: &Topic) -> String {
    let sent = topic.sent;
    match rng.below(12) {
        0..=3 => sent.to_string(),
        4 => (sent + 1).to_string(),
        5 => sent.saturating_sub(1).to_string(),
        6 => format!("-{sent}"),
        7 => format!("00{sent}"),
        8 => (topic.declared & (u64::MAX >> 1)).to_string(),
        9 => (sent.div_ceil(3) * 4).to_string(),
        10 => topic.piece.to_string(),
        _ => rng.pick(&GOOD_INTEGERS).to_string(),
    }
}

/// A command of another action with this session's id.
pub fn other_action(rng: &mut Rng, topic: &Topic) -> Fields {
    let mut fields = any(rng, topic);
    fields.0[0].1 = rng.word(&ACTIONS).to_vec();
    fields
}
