//! Generated receive sessions: as a client makes them, with paths at fault, and any command in any of their states.

use crate::fields::{cast, encoded, random_bytes, Fields, ACTIONS, GOOD_INTEGERS};
use crate::names;
use crate::rng::Rng;
use crate::streams::{any_command, emit, part, Shape};

/// How many paths are asked for: a few, most often as many as follow.
fn wanted(rng: &mut Rng, paths: usize) -> String {
    match rng.weighted(&[80, 6, 4, 10]) {
        0 => paths.to_string(),
        1 => (paths + 1).to_string(),
        2 => format!("{:03}", paths),
        _ => (rng.within(0, 41) as i64 - 1).to_string(),
    }
}

/// The command that begins a receive session of so many paths.
pub fn beginning(rng: &mut Rng, id: &[u8], paths: usize) -> Fields {
    let mut fields = Fields::new("receive", id);
    if rng.chance(98) {
        fields = fields.with("sz", wanted(rng, paths).as_bytes());
    }
    if rng.chance(35) {
        fields = fields.with("q", rng.word(&["0", "1", "1", "2"]));
    }
    fields
}

/// Fields that a path and a request may have and no rule looks at.
fn unchecked(rng: &mut Rng, fields: Fields) -> Fields {
    match rng.weighted(&[70, 6, 6, 6, 6, 6]) {
        0 => fields,
        1 => fields.with("ft", rng.word(&["regular", "directory", "symlink", "link"])),
        2 => fields.with("tt", rng.word(&["rsync", "simple"])),
        3 => fields.with("prm", rng.pick(&GOOD_INTEGERS).as_bytes()),
        4 => fields.with("sz", rng.pick(&GOOD_INTEGERS).as_bytes()),
        _ => fields.with("ft", b"link").with("tt", b"rsync").with("prm", b"-1").with("sz", b"-1"),
    }
}

/// A path that counts.
fn good_path(rng: &mut Rng, id: &[u8], fid: &[u8]) -> Fields {
    let name = names::good(rng);
    let fields = Fields::new("file", id).with("fid", fid).with("n", &encoded(&name));
    unchecked(rng, fields)
}

/// A path that most often does not count: its id is empty or known, or its name is bad. Some have two faults.
fn bad_path(rng: &mut Rng, id: &[u8], fid: &[u8], known: &[u8]) -> Fields {
    let of = |fid: &[u8]| match fid {
        [] => Fields::new("file", id),
        _ => Fields::new("file", id).with("fid", fid),
    };
    let good = encoded(&names::good(rng));
    let any = encoded(&names::name(rng));
    let fields = match rng.below(6) {
        0 => of(b"").with("n", &good),
        1 => of(known).with("n", &good),
        2 => of(fid),
        3 => of(b"").with("n", &any),
        4 => of(known).with("n", &any),
        _ => of(fid).with("n", &any),
    };
    unchecked(rng, fields)
}

/// The paths of a session, with some at fault among them.
fn paths(rng: &mut Rng, id: &[u8], count: usize, faults: usize, list: &mut Vec<Fields>) {
    let odd = cast(rng, 10);
    let mut known = b"a".to_vec();
    for i in 0..count {
        let plain = if i < 26 { vec![b'a' + i as u8] } else { i.to_string().into_bytes() };
        let fid = if rng.chance(85) || i > 9 { plain } else { odd[i].clone() };
        while rng.chance(faults) {
            list.push(bad_path(rng, id, &fid, &known));
        }
        list.push(good_path(rng, id, &fid));
        // The first known id stays one for a while, so that not only the latest is looked for.
        if rng.chance(50) {
            known = fid;
        }
    }
}

/// A request, of any id and any name. Most have a number from 1, as kitty's have.
fn request(rng: &mut Rng, id: &[u8], number: usize) -> Fields {
    let mut fields = Fields::new("file", id);
    match rng.weighted(&[60, 20, 10, 10]) {
        0 => fields = fields.with("fid", number.to_string().as_bytes()),
        1 => fields = fields.with("fid", rng.word(&["a", "b", "m", "mm", "A"])),
        2 => fields = fields.with("fid", &cast(rng, 1)[0]),
        _ => {}
    }
    if rng.chance(80) {
        let name = if rng.chance(70) { names::good(rng) } else { names::name(rng) };
        fields = fields.with("n", &encoded(&name));
    }
    unchecked(rng, fields)
}

/// What a client sends after the user was asked.
fn requests(rng: &mut Rng, shape: &Shape, id: &[u8], count: usize, list: &mut Vec<Fields>) {
    for number in 1..=count {
        list.push(request(rng, id, number));
        if rng.chance(12) {
            // A signature, or anything else.
            let action = *rng.pick(&["data", "end_data", "status"]);
            let content = part(rng, shape.big);
            list.push(Fields::new(action, id).with("fid", b"1").with("d", &encoded(&content)));
        }
    }
}

/// The commands of one client, about so many.
pub fn client(rng: &mut Rng, shape: &Shape, id: &[u8], commands: usize) -> Vec<Fields> {
    let count = match rng.weighted(&[40, 25, 15, 10, 10]) {
        4 => rng.within(1, 6),
        few => few + 1,
    };
    let mut list = vec![beginning(rng, id, count)];
    let faults = *rng.pick(&[0, 10, 30]);
    paths(rng, id, count, faults, &mut list);
    let left = commands.saturating_sub(list.len()).max(1);
    requests(rng, shape, id, left, &mut list);
    list
}

/// Receive sessions in no good order: any command at any point.
pub fn receives(rng: &mut Rng, shape: &Shape, ids: &[Vec<u8>]) -> Vec<Vec<u8>> {
    if rng.chance(12) {
        return many_paths(rng, shape, ids);
    }
    let fids = cast(rng, 2);
    let mut chunks = Vec::new();
    let mut count = 0;
    while count < shape.commands {
        let id = rng.id(ids).to_vec();
        let begun = begun(rng, &id);
        count += begun.len() + 1;
        begun.into_iter().for_each(|fields| emit(rng, shape, fields, &mut chunks));
        let own = std::slice::from_ref(&id);
        for _ in 0..rng.weighted(&[10, 50, 25, 15]) {
            let action = *rng.pick(&ACTIONS);
            let fields = any_command(rng, shape, action, own, &fids);
            emit(rng, shape, fields, &mut chunks);
        }
    }
    chunks
}

/// A session that is brought to one of its states, if the console does its part.
fn begun(rng: &mut Rng, id: &[u8]) -> Vec<Fields> {
    let count = rng.within(1, 2);
    let mut list = vec![beginning(rng, id, count)];
    paths(rng, id, count, 10, &mut list);
    match rng.weighted(&[15, 20, 30, 35]) {
        // Nothing, or only some of the paths.
        0 => list.truncate(1),
        1 => {
            list.pop();
        }
        2 => {}
        _ => list.push(request(rng, id, 1)),
    }
    list
}

/// About as many paths as a session may ask for, the room of which another session had before.
fn many_paths(rng: &mut Rng, shape: &Shape, ids: &[Vec<u8>]) -> Vec<Vec<u8>> {
    let id = &ids[0];
    let count = rng.within(30, 32);
    let mut list = Vec::new();
    if rng.chance(30) {
        list.push(Fields::new("send", id));
        list.push(good_path(rng, id, b"f"));
        list.push(Fields::new("cancel", id));
    }
    list.push(Fields::new("receive", id).with("sz", rng.word(&["31", "32", "32", "32", "33"])));
    paths(rng, id, count, 4, &mut list);
    let again = list[rng.below(list.len())].clone();
    list.push(again);
    requests(rng, shape, id, 2, &mut list);
    let mut chunks = Vec::new();
    list.into_iter().for_each(|fields| emit(rng, shape, fields, &mut chunks));
    chunks
}

/// A name of any bytes, for what nothing checks.
pub fn any_name(rng: &mut Rng) -> Vec<u8> {
    match rng.weighted(&[60, 20, 10, 10]) {
        0 => names::good(rng),
        1 => names::name(rng),
        2 => Vec::new(),
        _ => {
            let len = rng.below(40);
            random_bytes(rng, len)
        }
    }
}
