//! Generated operands of what a console supplies: entries of a listing, ids that can be written and not, home paths.

use crate::fields::{random_bytes, safe};
use crate::receives::any_name;
use crate::rng::Rng;
use reference::receiver::command::FileType;
use reference::receiver::Entry;
use reference::writer::Command;

/// The longest text of a command.
const LONGEST: usize = 8192;

#[rustfmt::skip]
const INTEGERS: [i64; 14] = [
    0, 0, 0, 1, -1, 9, 10, 420, 493, 4096, 1 << 40, i64::MAX, i64::MIN, i64::MIN + 1,
];

/// An id of a path, a file or a parent: most often good, and about as often as not empty.
pub fn id(rng: &mut Rng) -> Vec<u8> {
    let len = *rng.pick(&[1, 2, 3, 4, 31, 32]);
    match rng.weighted(&[40, 30, 15, 5, 5, 5]) {
        0 => Vec::new(),
        1 => rng.word(&["a", "b", "1", "2", "m"]).to_vec(),
        2 => safe(rng, len),
        3 => vec![b'f'; *rng.pick(&[33, 33, 34, 255])],
        4 => rng.word(&["a!", "a;b", "\u{e9}", " ", "a\x1b"]).to_vec(),
        _ => [vec![b'f'; rng.within(31, 33)], b"!".to_vec()].concat(),
    }
}

fn integer(rng: &mut Rng) -> i64 {
    if rng.chance(15) {
        return rng.number() as i64 >> rng.below(64);
    }
    *rng.pick(&INTEGERS)
}

fn file_type(rng: &mut Rng) -> FileType {
    let all = [FileType::Regular, FileType::Directory, FileType::Symlink, FileType::Link];
    all[rng.weighted(&[55, 15, 15, 15])]
}

fn own_id(rng: &mut Rng) -> Vec<u8> {
    let len = rng.below(12);
    match rng.weighted(&[70, 10, 20]) {
        0 => rng.within(1, 40).to_string().into_bytes(),
        1 => Vec::new(),
        _ => random_bytes(rng, len),
    }
}

fn target(rng: &mut Rng) -> Vec<u8> {
    match rng.weighted(&[65, 35]) {
        0 => Vec::new(),
        _ => rng.word(&["7", "fid:7", "path:/x", "../y", "\0"]).to_vec(),
    }
}

/// An entry of any fields; so many in a hundred have a text of about the longest length.
pub fn entry(rng: &mut Rng, id: Vec<u8>, long: usize) -> Entry {
    let mut entry = Entry {
        file_type: file_type(rng),
        modified: integer(rng),
        permissions: integer(rng),
        size: integer(rng),
        id,
        path_id: self::id(rng),
        parent: self::id(rng),
        name: any_name(rng),
        own_id: own_id(rng),
        target: target(rng),
    };
    if rng.chance(long) {
        let field = rng.below(3);
        let more = about(rng);
        if rng.chance(40) {
            // The other two take their share.
            for other in 0..3 {
                *field_of(&mut entry, other) = vec![b'O'; rng.below(2500)];
            }
        }
        *field_of(&mut entry, field) = Vec::new();
        let len = filling(&entry.command(), [3, 4, 3][field], more);
        *field_of(&mut entry, field) = vec![b'N'; len];
    }
    entry
}

/// The name, the entry's own id or its target.
fn field_of(entry: &mut Entry, field: usize) -> &mut Vec<u8> {
    match field {
        0 => &mut entry.name,
        1 => &mut entry.own_id,
        _ => &mut entry.target,
    }
}

/// How many bytes a field has that makes the text as long as it may be, and so many more. Before them stand `key` bytes.
pub fn filling(command: &Command, key: usize, more: isize) -> usize {
    let room = LONGEST.saturating_sub(command.text().len() + key);
    (room / 4 * 3).saturating_add_signed(more)
}

/// Three bytes are four of the text, so these go both sides of the limit.
fn about(rng: &mut Rng) -> isize {
    rng.below(7) as isize - 3
}

/// A home directory.
pub fn home(rng: &mut Rng, id: &[u8], long: usize) -> Vec<u8> {
    if rng.chance(long) {
        let command = Command { action: "status", id, status: b"OK", ..Command::default() };
        let more = about(rng);
        return vec![b'h'; filling(&command, 3, more)];
    }
    any_name(rng)
}
