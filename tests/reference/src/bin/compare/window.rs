//! Generated transfers as a client makes them: sessions with files in either direction, interleaved.

use crate::fields::{cast, encoded, Fields};
use crate::names;
use crate::receives;
use crate::rng::Rng;
use crate::sizes;
use crate::streams::{emit, part, Shape};

/// A client: its commands still to be sent.
struct Client(Vec<Fields>);

/// Transfers of all the ids, interleaved.
pub fn window(rng: &mut Rng, shape: &Shape, ids: &[Vec<u8>]) -> Vec<Vec<u8>> {
    let each = (shape.commands / ids.len()).max(3);
    let mut clients: Vec<Client> = ids.iter().map(|id| client(rng, shape, id, each)).collect();
    let mut chunks = Vec::new();
    while !clients.is_empty() {
        let place = rng.below(clients.len());
        let commands = &mut clients[place].0;
        if commands.is_empty() {
            clients.swap_remove(place);
            continue;
        }
        let fields = commands.remove(0);
        emit(rng, shape, fields, &mut chunks);
    }
    chunks
}

fn client(rng: &mut Rng, shape: &Shape, id: &[u8], commands: usize) -> Client {
    if rng.chance(35) {
        let mut list = receives::client(rng, shape, id, commands);
        end(rng, id, &mut list);
        return Client(list);
    }
    let mut send = Fields::new("send", id);
    if rng.chance(30) {
        send = send.with("q", rng.word(&["0", "1", "2"]));
    }
    let mut list = vec![send];
    let odd = cast(rng, 10);
    let mut file = 0;
    while list.len() < commands {
        let letter = [b'A' + (file % 26) as u8];
        let fid = if rng.chance(80) { letter.to_vec() } else { odd[file % odd.len()].clone() };
        transfer(rng, shape, id, &fid, &mut list);
        file += 1;
    }
    end(rng, id, &mut list);
    Client(list)
}

/// One file: its command and, unless it is a directory, its parts.
fn transfer(rng: &mut Rng, shape: &Shape, id: &[u8], fid: &[u8], list: &mut Vec<Fields>) {
    let of = |action: &str| Fields::new(action, id).with("fid", fid);
    let file = of("file").with("n", &encoded(&names::good(rng)));
    if rng.chance(20) {
        list.push(file.with("ft", b"directory").with("prm", b"493"));
        return;
    }
    let file = if rng.chance(30) { file.with("prm", b"420") } else { file };
    let count = rng.weighted(&[30, 30, 20, 10, 10]);
    let parts: Vec<Vec<u8>> = (0..count).map(|_| part(rng, shape.big)).collect();
    let last = if rng.chance(50) { part(rng, shape.big) } else { Vec::new() };
    let total = parts.iter().chain([&last]).map(Vec::len).sum();
    list.push(declaring(rng, file, total));
    list.extend(parts.iter().map(|content| of("data").with("d", &encoded(content))));
    if rng.chance(94) {
        let end = of("end_data");
        list.push(if last.is_empty() { end } else { end.with("d", &encoded(&last)) });
    }
}

/// A client's size is most often none or true.
fn declaring(rng: &mut Rng, file: Fields, total: usize) -> Fields {
    match rng.weighted(&[55, 40, 5]) {
        0 => file,
        1 => file.with("sz", total.to_string().as_bytes()),
        _ => file.with("sz", sizes::size(rng, total).as_bytes()),
    }
}

/// How a client ends; `finish` is sometimes repeated, as kitty's clients do.
fn end(rng: &mut Rng, id: &[u8], list: &mut Vec<Fields>) {
    match rng.weighted(&[60, 10, 10, 10, 10]) {
        0 => list.push(Fields::new("finish", id)),
        1 => list.push(Fields::new("finished", id)),
        2 => list.push(Fields::new("cancel", id)),
        3 => list.extend((0..3).map(|_| Fields::new("finish", id))),
        _ => {}
    }
}
