//! Receive sessions that no seed makes, or few: each command and each call in each state, with each quiet; entries, home paths and
//! parts about as long as they may be; each number of paths; full room; scripts that are none.

use crate::entries::filling;
use crate::fields::{encoded, Fields};
use crate::framing::framed;
use reference::notation::{bytes, receiver_call};
use reference::receiver::command::FileType;
use reference::receiver::Entry;
use reference::script::{encode, Buffer, Op};
use reference::writer::Command;

/// Items that lead to a state. A command stands without its frame, `q=Q` for the quiet that is tried. `waits`, `lists` and `serves`
/// bring a receive session of one path there.
const SETUPS: [&str; 17] = [
    "",
    "ac=receive;id=m;sz=1;q=Q",
    "ac=receive;id=m;sz=2;q=Q | ac=file;id=m;fid=a;n=L256",
    "waits m",
    "lists m",
    "serves m",
    "serves m | ac=file;id=m;fid=1;n=L256",
    "serves m | ac=file;id=m;st=YWJj;n= | [part xy]",
    // Another session has been here, and its file was asked for.
    "serves k | ac=file;id=k;fid=kk | [drop k] | ac=receive;id=m;sz=2;q=Q | ac=file;id=m;fid=b;n=L256",
    // Sends, in their states.
    "ac=send;id=m;q=Q",
    "ac=send;id=m;q=Q | [allow m]",
    "ac=send;id=m;q=Q | [allow m] | ac=file;id=m;fid=a;n=L256",
    "ac=send;id=m;q=Q | [allow m] | ac=file;id=m;fid=a;n=L256 | [done] | ac=end_data;id=m;fid=a;d=YWJj",
    // Another session owes an answer.
    "lists m | ac=send;id=k | [allow k] | ac=finish;id=k",
    "waits m | serves k | ac=file;id=k;fid=1",
    "lists k | serves m | ac=file;id=m;fid=1",
    // No place is free.
    "ac=send;id=a | ac=receive;id=b;sz=1 | ac=receive;id=c;sz=32 | ac=send;id=d",
];

const COMMANDS: [&str; 22] = [
    "ac=send;id=m",
    "ac=receive;id=m;sz=1;q=1",
    "ac=receive;id=m",
    "ac=receive;id=m;sz=33;q=2",
    "ac=receive;id=m;sz=32;fid=a",
    "ac=file;id=m;fid=b;n=L256",
    "ac=file;id=m;n=L256",
    "ac=file;id=m",
    "ac=file;id=m;fid=a;n=L256",
    "ac=file;id=m;fid=a;n=YQ==",
    "ac=file;id=m;fid=b;n=YQ==",
    "ac=file;id=m;fid=b",
    "ac=file;st=YWJj;id=m;fid=b;ft=link;tt=rsync;prm=-1;sz=-1;q=2;d=YWJj;n=L256",
    "ac=file;id=m;fid=c;ft=directory;prm=4096;n=fi9h",
    "ac=data;id=m;fid=a;d=YWJj",
    "ac=end_data;id=m;fid=1",
    "ac=finish;id=m",
    "ac=finished;id=m;fid=1",
    "ac=cancel;id=m;fid=1;q=2",
    "ac=status;id=m;st=T0s=",
    "ac=file;id=m;fid=b;zip=zlib",
    "ac=receive;id=M;sz=1",
];

const CALLS: [&str; 45] = [
    "allow m",
    "deny m",
    "drop m",
    "drop k",
    "done",
    "failed EIO",
    "list m a 7 /nz",
    "list m b 7 /nz",
    "list k a 7 /nz",
    "list m  7 ",
    "list m a  ",
    "list  a 7 /nz",
    "list M a 7 /nz",
    "list m a! 7 /x",
    "list m {f*32} 7 /x",
    "list m {f*33} 7 /x",
    "list m {f*33}! 7 /x",
    "list {m*33} a! 7 /x",
    "list m a! 7 {x*6200}",
    "list m a 7 {x*6200}",
    "nolist m a ENOENT",
    "nolist m  EIO",
    "nolist k a EPERM",
    "nolist m a! EIO",
    "nolist m {f*33} ENOSPC",
    "home m /h",
    "home k /h",
    "home m ",
    "home  /h",
    "home m {h*6200}",
    "part",
    "part xy",
    "part {x*4096}",
    "part {x*4097}",
    "last",
    "last xyz",
    "last {x*4097}",
    "unlisted",
    "short list m a! 7 /nz",
    "short nolist m a EIO",
    "short home m /h",
    "short part {x*4097}",
    "short last x",
    "short unlisted",
    "short done",
];

/// What is done after each, so that a state that is not the right one shows.
const PROBE: &str = "ac=file;id=m;fid=9;n=L256;q=1 | [part q] | [list m a 1 /p] | [home m /] | ac=file;id=m;fid=8 | [last r] | \
    [unlisted] | [failed ENOENT] | [allow m] | ac=send;id=m | ac=finish;id=m | ac=cancel;id=m";

/// The operations of items.
fn ops(items: &str, quiet: &str) -> Vec<Op> {
    let items = items.split(" | ").filter(|item| !item.is_empty()).flat_map(spelled_out);
    let item = |item: String| match item.strip_prefix('[') {
        Some(call) => receiver_call(call.trim_end_matches(']')),
        None => vec![command(&item.replace("q=Q", &format!("q={quiet}")))],
    };
    items.flat_map(item).collect()
}

fn spelled_out(item: &str) -> Vec<String> {
    let (word, id) = item.split_once(' ').unwrap_or((item, ""));
    let steps = match word {
        "waits" => 2,
        "lists" => 3,
        "serves" => 4,
        _ => return vec![item.into()],
    };
    // The session that is tried is m.
    let quiet = if id == "m" { ";q=Q" } else { "" };
    let all = [
        format!("ac=receive;id={id};sz=1{quiet}"),
        format!("ac=file;id={id};fid=a;n=L256"),
        format!("[allow {id}]"),
        format!("[home {id} /h]"),
    ];
    all[..steps].to_vec()
}

fn command(text: &str) -> Op {
    Op::Feed(framed(&[b"5113;", &bytes(text)[..]].concat()))
}

/// Each command and call in a state, and what follows.
fn every_call(setup: &str, quiet: &str) -> Vec<u8> {
    let look = Op::Numbers(b"m".to_vec());
    let commands = COMMANDS.iter().map(|text| vec![command(text)]);
    let calls = CALLS.iter().map(|text| receiver_call(text));
    let with = |then: Vec<Op>| {
        let looks = [look.clone(), Op::Text];
        [&[Op::Anew], &ops(setup, quiet)[..], &then, &looks, &ops(PROBE, quiet)].concat()
    };
    encode(&commands.chain(calls).flat_map(with).collect::<Vec<Op>>())
}

/// The session m lists.
fn listing() -> Vec<Op> {
    ops(SETUPS[4], "0")
}

/// Entries of which the text has about 8,192 bytes, by each of the fields that have no limit of their own. Four lengths of the
/// parent's id make every length of a text.
fn long_entries(parent: usize) -> Vec<u8> {
    let mut ops = listing();
    let parent = vec![b'p'; parent];
    let base = Entry { id: b"m".to_vec(), path_id: b"a".to_vec(), parent, ..Entry::default() };
    for more in [0, 1] {
        let fill = |key| vec![b'N'; filling(&base.command(), key, more)];
        ops.push(Op::List(Entry { name: fill(3), ..base.clone() }));
        ops.push(Op::List(Entry { own_id: fill(4), ..base.clone() }));
        ops.push(Op::List(Entry { target: fill(3), ..base.clone() }));
    }
    encode(&ops)
}

/// Home paths of which the text has about 8,192 bytes; a refused one leaves the session as it was.
fn long_homes(id: usize) -> Vec<u8> {
    let id = vec![b'i'; id];
    let of = |action: &str| Fields::new(action, &id);
    let path = of("file").with("fid", b"a").with("n", b"L256");
    let feeds =
        [of("receive").with("sz", b"1"), path.clone()].map(|of| Op::Feed(framed(&of.text())));
    let mut ops = [&feeds[..], &[Op::Allow(id.clone())]].concat();
    let command = Command { action: "status", id: &id, status: b"OK", ..Command::default() };
    for more in [3, 2, 1, 0] {
        let path = vec![b'h'; filling(&command, 3, more)];
        ops.push(Op::Home { id: id.clone(), path });
    }
    let request = of("file").with("fid", &[b'f'; 32]);
    ops.push(Op::Feed(framed(&request.text())));
    ops.extend([4095, 4096, 4097].map(|len| Op::Part(vec![b'x'; len])));
    ops.extend([4097, 4096].map(|len| Op::LastPart(vec![b'y'; len])));
    encode(&ops)
}

/// Operands longer than any text, and a part after them.
fn huge(len: usize) -> Vec<u8> {
    let bytes = || vec![b'L'; len];
    let base = Entry { id: b"m".to_vec(), ..Entry::default() };
    let ops = [
        Op::List(Entry { name: bytes(), ..base.clone() }),
        Op::List(Entry { own_id: bytes(), ..base.clone() }),
        Op::List(Entry { target: bytes(), ..base.clone() }),
        Op::Home { id: b"m".to_vec(), path: bytes() },
        Op::Part(bytes()),
        Op::Home { id: b"m".to_vec(), path: Vec::new() },
        command("ac=file;id=m"),
        Op::LastPart(bytes()),
        Op::LastPart(Vec::new()),
    ];
    encode(&[&listing(), &ops[..]].concat())
}

/// An entry with each number at its limits, and of each type.
fn entries() -> Vec<u8> {
    let mut ops = listing();
    let base = Entry { id: b"m".to_vec(), name: b"/n".to_vec(), ..Entry::default() };
    for number in [i64::MIN, i64::MIN + 1, -1, 0, 1, 9, 10, 4095, i64::MAX - 1, i64::MAX] {
        ops.push(Op::List(Entry { modified: number, ..base.clone() }));
        ops.push(Op::List(Entry { permissions: number, ..base.clone() }));
        ops.push(Op::List(Entry { size: number, ..base.clone() }));
    }
    for file_type in [FileType::Regular, FileType::Directory, FileType::Symlink, FileType::Link] {
        let (own_id, target) = (b"7".to_vec(), b"fid:1".to_vec());
        ops.push(Op::List(Entry { file_type, own_id, target, modified: 1, ..base.clone() }));
    }
    for (path_id, parent) in [(32, 32), (33, 0), (0, 33), (33, 33)] {
        let (path_id, parent) = (vec![b'f'; path_id], vec![b'p'; parent]);
        ops.push(Op::List(Entry { path_id, parent, ..base.clone() }));
    }
    for (path_id, parent) in
        [(&b"a"[..], &b"p!"[..]), (b"a!", b"pppp"), (b"a!", b"p!"), (&[b'f'; 33], b"p!")]
    {
        let (path_id, parent) = (path_id.to_vec(), parent.to_vec());
        ops.push(Op::List(Entry { path_id, parent, ..base.clone() }));
    }
    encode(&ops)
}

/// Buffers out of the shortest length that will do, and of one byte less.
fn exact() -> Vec<u8> {
    let setup = ops("serves m | ac=file;id=m;fid=1 | [drop m] | lists m", "0");
    let call = |text: &str| {
        [8195, 8196, 8197]
            .map(|len| [vec![Op::Lend(Buffer::Out, len)], receiver_call(text)].concat())
    };
    let calls =
        ["list m a 7 /nz", "nolist m a EIO", "home m /h"].iter().flat_map(|text| call(text));
    let request = [command("ac=file;id=m;fid=1")];
    let parts = ["part x", "last y"].iter().flat_map(|text| call(text));
    let all = calls.flatten().chain(request).chain(parts.flatten());
    encode(&[setup, all.collect()].concat())
}

/// A session of 32 paths, each of which is then known; the next one in its room knows none of them.
fn full_room() -> Vec<u8> {
    let file = |fid: usize| format!("ac=file;id=m;fid={fid};n=L256");
    let mut items = vec!["ac=receive;id=m;sz=32".to_string()];
    for fid in 0..32 {
        items.extend([file(fid), file(fid), file(fid / 2)]);
    }
    items.push("ac=receive;id=m;sz=32".into());
    items.extend((0..32).map(file));
    items.extend(["[allow m]".into(), "[home m /]".into(), file(0), "[part x]".into()]);
    items.extend(["[drop m]".into(), "ac=send;id=m".into(), "[allow m]".into(), file(0)]);
    let look = Op::Numbers(b"m".to_vec());
    encode(
        &ops(&items.join(" | "), "0")
            .into_iter()
            .flat_map(|op| [op, look.clone()])
            .collect::<Vec<_>>(),
    )
}

/// An operation that stands whole, cut off after each of its bytes, and those with operands that are none.
fn bad() -> Vec<Vec<u8>> {
    let id = b"m".to_vec();
    let entry = Entry { id: id.clone(), name: b"/n".to_vec(), ..Entry::default() };
    let whole = [
        Op::List(entry),
        Op::ListFailed { id: id.clone(), fid: b"a".to_vec(), code: 1 },
        Op::Home { id, path: b"/h".to_vec() },
        Op::Part(b"xy".to_vec()),
        Op::LastPart(b"xy".to_vec()),
    ];
    let whole = whole.map(|op| encode(&[op]));
    let mut all: Vec<Vec<u8>> = whole
        .iter()
        .flat_map(|bytes| (1..=bytes.len()).map(|len| [b"u", &bytes[..len]].concat()))
        .collect();
    all.extend([0, 5, 255].map(|code| [b"g\x01m\x01a", &[code][..]].concat()));
    all.extend([3, 4, 255].map(|kind| [b"l", &[kind][..], &whole[0][2..]].concat()));
    all.extend(
        [&b"o"[..], b"o\x03", b"o\x03 p", b"uu", b"U", b"o\x00\x00z\x00\x00"].map(<[u8]>::to_vec),
    );
    all
}

pub fn scripts() -> Vec<Vec<u8>> {
    let calls =
        SETUPS.iter().flat_map(|setup| ["0", "1", "2"].map(|quiet| every_call(setup, quiet)));
    let mut all: Vec<Vec<u8>> = calls.collect();
    all.extend([1, 2, 3, 4].map(long_entries));
    all.extend([1, 2, 3, 4, 32].map(long_homes));
    all.extend([6200, 8191, 8192, 8193, 10_500].map(huge));
    all.extend([entries(), full_room(), exact()]);
    all.extend(bad());
    all
}

/// Each number of paths from -1 to 41, as many paths as it says or one less, and what is then sent.
fn numbers(quiet: &str) -> Vec<u8> {
    let mut recording = Vec::new();
    let mut add = |text: String| recording.extend(framed(&[b"5113;", text.as_bytes()].concat()));
    for size in -1..=41 {
        for less in [0, 1] {
            add(format!("ac=receive;id=m;sz={size};q={quiet}"));
            (0..size - less).for_each(|i| add(format!("ac=file;id=m;fid=f{i};n=L256")));
            add("ac=file;id=m;fid=f0;n=L256".into());
            add("ac=send;id=m".into());
            add("ac=cancel;id=m".into());
        }
    }
    recording
}

/// Each command in each of the states that a replay reaches.
fn every_command(setup: &str, quiet: &str) -> Vec<u8> {
    let pieces = |items: &str| {
        let feed = |op| match op {
            Op::Feed(piece) => piece,
            _ => Vec::new(),
        };
        ops(items, quiet).into_iter().flat_map(feed).collect::<Vec<u8>>()
    };
    let mut recording = Vec::new();
    for text in COMMANDS {
        recording.extend(pieces(setup));
        recording.extend(framed(&[b"5113;", text.as_bytes()].concat()));
        recording.extend(pieces(PROBE));
        recording.extend(["a", "b", "c", "d", "k", "m", "M"].iter().flat_map(|id| {
            framed(&Fields::new("cancel", id.as_bytes()).with("n", &encoded(b"/")).text())
        }));
    }
    recording
}

pub fn recordings() -> Vec<Vec<u8>> {
    let setups = [0, 1, 2, 3, 9, 16].map(|i| SETUPS[i]);
    let commands =
        setups.iter().flat_map(|setup| ["0", "1", "2"].map(|quiet| every_command(setup, quiet)));
    ["0", "1", "2"].map(numbers).into_iter().chain(commands).collect()
}

#[cfg(test)]
mod tests {
    use super::*;
    use reference::console::LONGEST_SCRIPT;

    /// A longer one would say nothing.
    #[test]
    fn the_scripts_are_short_enough() {
        let longest = scripts().iter().map(Vec::len).max();
        assert!(longest.is_some_and(|len| len <= LONGEST_SCRIPT), "{longest:?}");
    }
}
