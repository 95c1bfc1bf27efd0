//! Generated files that declare a length: parts that meet it, pass it or fall short of it, and sizes that declare nothing.

use crate::fields::{encoded, Fields};
use crate::framing::framed;
use crate::names;
use crate::rng::Rng;
use crate::streams::{emit, opening, Shape};

/// Sizes that no parts of sensible number meet, or that declare nothing.
#[rustfmt::skip]
pub const ODD: [&str; 14] = [
    "0", "-0", "000", "-1", "-1", "-9223372036854775808", "-4096", "1099511627775", "1099511627776", "1099511627777",
    "2199023255552", "4294967296", "9223372036854775806", "9223372036854775807",
];

/// A file: what it declares, and the lengths of its parts.
struct Plan {
    size: Option<String>,
    parts: Vec<usize>,
    /// Whether the last part goes with end_data, or an empty one does.
    with_end: bool,
}

/// Any size for a file whose parts have this length together.
pub fn size(rng: &mut Rng, total: usize) -> String {
    match rng.weighted(&[45, 15, 15, 10, 15]) {
        0 => total.to_string(),
        1 => (total + 1).to_string(),
        2 => total.saturating_sub(1).to_string(),
        3 => rng.within(1, 2 * total + 2).to_string(),
        _ => rng.pick(&ODD).to_string(),
    }
}

/// Cuts a length into parts, some of them empty.
fn cut(rng: &mut Rng, total: usize) -> Vec<usize> {
    let mut parts = Vec::new();
    let mut left = total;
    while left > 0 {
        let most = left.min(*rng.pick(&[4096, 4096, 4096, 4097]));
        let len = if rng.chance(50) { most } else { rng.below(most + 1) };
        parts.push(len);
        left -= len;
    }
    if rng.chance(30) {
        parts.insert(rng.below(parts.len() + 1), 0);
    }
    parts
}

fn plan(rng: &mut Rng, shape: &Shape) -> Plan {
    let total = if rng.chance(shape.big) {
        *rng.pick(&[4095, 4096, 4096, 4097, 4097, 8192, 8193])
    } else {
        *rng.pick(&[0, 1, 2, 3, 3, 5, 40])
    };
    let size = rng.chance(90).then(|| size(rng, total));
    Plan { size, parts: cut(rng, total), with_end: rng.chance(50) }
}

/// The commands of a plan, the file command first.
fn commands(id: &[u8], fid: &[u8], name: &[u8], plan: &Plan) -> Vec<Fields> {
    let of = |action: &str| Fields::new(action, id).with("fid", fid);
    let mut file = of("file").with("n", &encoded(name));
    if let Some(size) = &plan.size {
        file = file.with("sz", size.as_bytes());
    }
    let part = |action: &str, len: usize| match len {
        0 => of(action),
        _ => of(action).with("d", &encoded(&vec![b'A' + (len % 26) as u8; len])),
    };
    let mut list = vec![file];
    list.extend(plan.parts.iter().map(|&len| part("data", len)));
    let end = plan.parts.last().filter(|_| plan.with_end);
    if let Some(&len) = end {
        list.pop();
        list.push(part("end_data", len));
    } else {
        list.push(part("end_data", 0));
    }
    list
}

/// Changes the commands of a file: another type, a fault of its own, one part too many or too few.
fn disturb(rng: &mut Rng, list: &mut Vec<Fields>) {
    let file = list[0].clone();
    match rng.weighted(&[60, 10, 4, 4, 4, 6, 6, 6]) {
        0 => {}
        1 => list[0] = file.with("ft", b"directory"),
        2 => list[0] = file.with("ft", rng.word(&["symlink", "link", "regular"])),
        3 => list[0] = file.with("tt", rng.word(&["rsync", "simple"])),
        4 => list[0] = file.with("prm", rng.word(&["-1", "4096", "0"])),
        5 => {
            list.remove(rng.below(list.len()));
        }
        6 => {
            let again = list[rng.below(list.len())].clone();
            list.push(again);
        }
        // The size of a part counts for nothing.
        _ => {
            let place = rng.below(list.len());
            if !list[place].has("sz") {
                list[place] = list[place].clone().with("sz", rng.word(&["0", "1", "-1", "3"]));
            }
        }
    }
}

/// A session with files that declare their lengths; now and then it begins anew, with the same ids.
pub fn sizes(rng: &mut Rng, shape: &Shape, ids: &[Vec<u8>]) -> Vec<Vec<u8>> {
    let id = &ids[0];
    let mut chunks = vec![opening(rng, id)];
    for i in 0..shape.commands.div_ceil(2) {
        let fid = [b'a' + (i % 5) as u8];
        if i % 5 == 0 && i > 0 || rng.chance(10) {
            chunks.push(framed(&Fields::new("cancel", id).text()));
            chunks.push(opening(rng, id));
        }
        let plan = plan(rng, shape);
        let mut list = commands(id, &fid, &names::good(rng), &plan);
        disturb(rng, &mut list);
        list.into_iter().for_each(|fields| emit(rng, shape, fields, &mut chunks));
    }
    emit(rng, shape, Fields::new("finish", id), &mut chunks);
    chunks
}

/// The parts that a listed file has: met, passed by one and short by one, in one part or with an empty end.
fn listed_parts(total: usize) -> Vec<Plan> {
    let mut plans = Vec::new();
    for total in [total.saturating_sub(1), total, total + 1] {
        for with_end in [true, false] {
            plans.push(Plan { size: None, parts: vec![total], with_end });
        }
        plans.push(Plan {
            size: None,
            parts: vec![0, total / 2, total - total / 2, 0],
            with_end: true,
        });
    }
    plans
}

/// Every case of a list of sizes: met, missed by one either way, and each file type. Each has a session of its own.
pub fn listed(sizes: &[&str], total: usize) -> Vec<u8> {
    let frame = |action: &str| framed(&Fields::new(action, b"m").text());
    let mut recording = Vec::new();
    let mut add = |list: Vec<Fields>| {
        let frames = list.iter().map(|fields| framed(&fields.text()));
        recording.extend(frame("send"));
        recording.extend(frames.collect::<Vec<_>>().concat());
        recording.extend([frame("finish"), frame("cancel")].concat());
    };
    for size in sizes {
        for plan in listed_parts(total) {
            let plan = Plan { size: Some(size.to_string()), ..plan };
            add(commands(b"m", b"a", b"/A", &plan));
        }
        for kind in ["regular", "directory", "symlink", "link"] {
            let plan = Plan { size: Some(size.to_string()), parts: vec![total], with_end: true };
            let mut list = commands(b"m", b"a", b"/A", &plan);
            list[0] = list[0].clone().with("ft", kind.as_bytes());
            add(list);
        }
    }
    recording
}

/// A file of more bytes than 16 bits count, closed with its length or without one.
pub fn long() -> Vec<u8> {
    let mut recording = framed(&Fields::new("send", b"m").text());
    for (fid, size) in [(b"a", Some("65537".into())), (b"b", None)] {
        let parts = [vec![4096; 16], vec![1]].concat();
        let list = commands(b"m", fid, b"/A", &Plan { size, parts, with_end: true });
        recording.extend(list.iter().flat_map(|fields| framed(&fields.text())));
    }
    recording
}
