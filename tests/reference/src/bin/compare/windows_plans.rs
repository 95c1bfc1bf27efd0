//! Windows as senders mean them: sessions of files with contents. Written out, they are cut and interleaved anew each time.

use crate::fields::{adorn, cast, encoded, random_bytes, Fields};
use crate::framing::framed;
use crate::receives;
use crate::rng::Rng;
use crate::sizes;
use crate::streams::Shape;

#[derive(Clone)]
struct File {
    fid: Vec<u8>,
    content: Vec<u8>,
    size: Option<String>,
    directory: bool,
    closed: bool,
}

#[derive(Clone)]
struct Session {
    id: Vec<u8>,
    files: Vec<File>,
    end: Option<&'static str>,
}

/// Each client sends its sessions one after another; receive sessions stand as their commands.
#[derive(Clone)]
pub struct Plan {
    clients: Vec<Vec<Session>>,
    receives: Vec<Vec<Fields>>,
}

/// Ids of files, so few that they meet again in other sessions; some are the start of another one.
#[rustfmt::skip]
const FIDS: [&str; 9] =
    ["a", "b", "aa", "ab", "A", "c", "aaaaaaaaaaaaaaaaaaaaaaaaaaaaaaa", "aaaaaaaaaaaaaaaaaaaaaaaaaaaaaaaa", "m"];

const ENDS: [Option<&str>; 5] =
    [Some("finish"), Some("finish"), Some("cancel"), Some("finished"), None];

fn content(rng: &mut Rng) -> Vec<u8> {
    match rng.weighted(&[15, 30, 30, 20, 5]) {
        0 => Vec::new(),
        // Of two such contents one is the start of the other.
        1 => b"abcdefghijklmnop"[..rng.below(17)].to_vec(),
        2 => {
            let len = rng.within(1, 12);
            (0..len).map(|_| *rng.pick(b"aab")).collect()
        }
        3 => {
            let len = rng.within(1, 60);
            random_bytes(rng, len)
        }
        _ => vec![b'A' + rng.below(3) as u8; *rng.pick(&[4095, 4096, 4097, 6000, 8192, 9000])],
    }
}

fn file(rng: &mut Rng) -> File {
    let content = content(rng);
    let size = rng.chance(20).then(|| content.len().to_string());
    let (directory, closed) = (rng.chance(8), rng.chance(75));
    File { fid: rng.word(&FIDS).to_vec(), content, size, directory, closed }
}

fn session(rng: &mut Rng, id: &[u8]) -> Session {
    let count = if rng.chance(2) { rng.within(30, 36) } else { rng.weighted(&[5, 30, 30, 20, 15]) };
    let mut files: Vec<File> = (0..count).map(|_| file(rng)).collect();
    if count >= 30 {
        // Each has an id of its own, so that the session's room is met.
        files.iter_mut().zip(0..).for_each(|(file, i)| file.fid = format!("{i}").into_bytes());
    }
    Session { id: id.to_vec(), files, end: *rng.pick(&ENDS) }
}

fn receive(rng: &mut Rng) -> Vec<Fields> {
    let shape = Shape { commands: 6, damage: 0, noise: 0, big: 0 };
    let id = cast(rng, 1).remove(0);
    let mut list = receives::client(rng, &shape, &id, 6);
    list.truncate(rng.within(1, 8));
    list
}

pub fn plan(rng: &mut Rng) -> Plan {
    let count = 1 + rng.weighted(&[40, 30, 10, 6, 10, 4]);
    let ids = cast(rng, count);
    let client = |rng: &mut Rng, id: &[u8]| {
        let sessions = 1 + rng.weighted(&[60, 25, 15]);
        (0..sessions).map(|_| session(rng, id)).collect()
    };
    let clients = ids.iter().map(|id| client(rng, id)).collect();
    let receives = (0..rng.weighted(&[75, 17, 4, 2, 2])).map(|_| receive(rng)).collect();
    Plan { clients, receives }
}

/// Changes something, or nothing where there is nothing to change.
pub fn change(rng: &mut Rng, plan: &mut Plan) {
    match rng.weighted(&[80, 10, 5, 5]) {
        1 => rng.shuffle(&mut plan.clients),
        2 => plan.receives.push(receive(rng)),
        3 => {
            plan.receives.pop();
        }
        _ => {
            let client = rng.below(plan.clients.len());
            change_client(rng, &mut plan.clients[client]);
        }
    }
}

fn change_client(rng: &mut Rng, sessions: &mut Vec<Session>) {
    if sessions.is_empty() {
        return;
    }
    let place = rng.below(sessions.len());
    match rng.weighted(&[70, 6, 8, 6, 6, 4]) {
        1 => {
            sessions.remove(place);
        }
        // It starts again, most often with the same files.
        2 => sessions.insert(place, sessions[place].clone()),
        3 => sessions[place].end = *rng.pick(&ENDS),
        4 => near(rng, &mut sessions[place].id),
        5 => rng.shuffle(&mut sessions[place].files),
        _ => change_files(rng, &mut sessions[place].files),
    }
}

/// Another id that is the start of this one, or has it as its start.
fn near(rng: &mut Rng, id: &mut Vec<u8>) {
    if id.len() > 1 && (rng.chance(50) || id.len() == 32) {
        id.pop();
    } else {
        id.push(*rng.pick(b"am"));
    }
}

fn change_files(rng: &mut Rng, files: &mut Vec<File>) {
    if files.is_empty() || rng.chance(12) {
        return files.push(file(rng));
    }
    let place = rng.below(files.len());
    if rng.chance(12) {
        files.remove(place);
        return;
    }
    let file = &mut files[place];
    match rng.weighted(&[25, 20, 20, 8, 6, 8, 13]) {
        0 if !file.content.is_empty() => {
            let at = rng.below(file.content.len());
            file.content[at] ^= 1 << rng.below(8);
        }
        1 => file.content.truncate(rng.below(file.content.len() + 1)),
        2 => {
            let more = content(rng);
            file.content.extend(more);
        }
        3 => near(rng, &mut file.fid),
        4 => file.directory = !file.directory,
        5 => file.size = Some(sizes::size(rng, file.content.len())),
        _ => file.closed = !file.closed,
    }
}

/// The frames of a plan.
pub fn written(rng: &mut Rng, plan: &Plan) -> Vec<Vec<u8>> {
    let one = |rng: &mut Rng, sessions: &[Session]| {
        sessions.iter().flat_map(|session| commands(rng, session)).collect::<Vec<Fields>>()
    };
    let mut queues: Vec<Vec<Fields>> = plan.clients.iter().map(|list| one(rng, list)).collect();
    queues.extend(plan.receives.iter().cloned());
    let mixed = rng.chance(60);
    let frame = |rng: &mut Rng, fields: Fields| {
        let fields = if rng.chance(12) { adorn(rng, fields) } else { fields };
        framed(&fields.text())
    };
    merged(rng, queues, mixed).into_iter().map(|fields| frame(rng, fields)).collect()
}

/// The members of all queues, each queue's in order: one queue after another, or mixed.
fn merged<T>(rng: &mut Rng, queues: Vec<Vec<T>>, mixed: bool) -> Vec<T> {
    let mut queues: Vec<_> = queues.into_iter().map(Vec::into_iter).collect();
    let mut all = Vec::new();
    while !queues.is_empty() {
        let place = if mixed { rng.below(queues.len()) } else { 0 };
        match queues[place].next() {
            Some(member) => all.push(member),
            None => {
                queues.remove(place);
            }
        }
    }
    all
}

fn commands(rng: &mut Rng, session: &Session) -> Vec<Fields> {
    let files: Vec<Vec<Fields>> =
        session.files.iter().map(|file| transfer(rng, &session.id, file)).collect();
    let mixed = rng.chance(40);
    let mut list = vec![Fields::new("send", &session.id)];
    list.extend(merged(rng, files, mixed));
    list.extend(session.end.map(|end| Fields::new(end, &session.id)));
    list
}

fn transfer(rng: &mut Rng, id: &[u8], file: &File) -> Vec<Fields> {
    let of = |action: &str| Fields::new(action, id).with("fid", &file.fid);
    let mut first = of("file").with("n", b"Lw==");
    if let Some(size) = &file.size {
        first = first.with("sz", size.as_bytes());
    }
    if file.directory {
        return vec![first.with("ft", b"directory")];
    }
    let part = |action: &str, bytes: &[u8]| match bytes {
        [] => of(action),
        _ => of(action).with("d", &encoded(bytes)),
    };
    let mut parts = cut(rng, &file.content);
    let last = if rng.chance(50) { parts.pop() } else { None };
    let mut list = vec![first];
    list.extend(parts.iter().map(|bytes| part("data", bytes)));
    if file.closed {
        list.push(part("end_data", last.unwrap_or_default()));
    } else {
        list.extend(last.map(|bytes| part("data", bytes)));
    }
    list
}

/// A content in parts, some of them empty. Few are longer than a part may be.
fn cut<'c>(rng: &mut Rng, content: &'c [u8]) -> Vec<&'c [u8]> {
    let most = *rng.pick(&[1, 3, 3000, 4096, 4096, 4096, 4096, 4096, 4096, 4097]);
    let least = content.len() / 12;
    let mut parts: Vec<&[u8]> = Vec::new();
    let mut rest = content;
    while !rest.is_empty() {
        let len = if rng.chance(50) { most.max(least) } else { rng.within(1, most.max(least)) };
        let (part, after) = rest.split_at(len.min(rest.len()));
        parts.push(part);
        rest = after;
    }
    if rng.chance(15) {
        parts.insert(rng.below(parts.len() + 1), &[]);
    }
    parts
}
