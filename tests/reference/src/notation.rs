//! The notation of the papers' examples.

use crate::delta::layout;
use crate::receiver::command::FileType;
use crate::receiver::{base64, Entry};
use crate::script::{Buffer, Op};
use crate::sender::script as sender;
use crate::writer::Command;

/// The bytes of an example: `^[` is 1B, `<hh>` the byte hh, `{A*n}` A n times. Panics at what is no notation.
pub fn bytes(notation: &str) -> Vec<u8> {
    let mut out = Vec::new();
    let mut rest = notation.as_bytes();
    while let Some(&first) = rest.first() {
        let end = |closer| rest.iter().position(|&b| b == closer);
        let inner = |end: usize| std::str::from_utf8(&rest[1..end]).unwrap();
        let taken = match first {
            b'^' if rest.get(1) == Some(&b'[') => {
                out.push(0x1b);
                2
            }
            b'<' => {
                out.push(u8::from_str_radix(inner(3), 16).unwrap());
                4
            }
            b'{' => {
                let end = end(b'}').unwrap();
                let (byte, count) = inner(end).split_once('*').unwrap();
                out.resize(out.len() + count.parse::<usize>().unwrap(), byte.as_bytes()[0]);
                end + 1
            }
            _ => {
                out.push(first);
                1
            }
        };
        rest = &rest[taken..];
    }
    out
}

/// The call of an item of order 1's page; the session of a status is `m`. Panics at what is no item.
pub fn sender_call(item: &str) -> sender::Op {
    use sender::Op;
    let (word, operand) = item.split_once(' ').unwrap_or((item, ""));
    match word {
        "snd" => Op::Send(bytes(operand)),
        "file" => {
            let operands: Vec<&str> = operand.split(' ').collect();
            let size = operands.get(2).map_or(0, |size| size.parse().unwrap());
            Op::File { fid: bytes(operands[0]), name: bytes(operands[1]), size }
        }
        "data" => Op::Piece(bytes(operand)),
        "end" => Op::Last(bytes(operand)),
        "fin" => Op::Finish,
        "hear" => Op::Hear(status(operand)),
        "raw" => Op::Hear(bytes(operand)),
        _ => panic!("no such item: {item}"),
    }
}

/// The frame of `WORD[/FID][=SZ]`.
fn status(notation: &str) -> Vec<u8> {
    let (status, size) = notation.split_once('=').unwrap_or((notation, ""));
    let (word, fid) = status.split_once('/').unwrap_or((status, ""));
    let mut encoded = vec![0; word.len().div_ceil(3) * 4];
    base64::encode(word.as_bytes(), &mut encoded);
    let encoded = String::from_utf8(encoded).unwrap();
    let mut text = "5113;ac=status;id=m".to_string();
    for (key, value) in [("fid", fid), ("sz", size), ("st", &encoded)] {
        if !value.is_empty() {
            text += &format!(";{key}={value}");
        }
    }
    format!("\x1b]{text}\x1b\\").into_bytes()
}

/// The operations of a console call of the readings and of order 6's page; `short` before it lends its buffer a byte too short.
/// Panics at what is no call.
pub fn receiver_call(text: &str) -> Vec<Op> {
    let Some(short) = text.strip_prefix("short ") else {
        return vec![call(text)];
    };
    let op = call(short);
    let (buffer, least) = if op.writes_out() { (Buffer::Out, 8196) } else { (Buffer::Reply, 124) };
    vec![Op::Lend(buffer, least - 1), op, Op::Lend(buffer, u16::MAX)]
}

fn code(word: &str) -> u8 {
    let codes = ["EPERM", "EIO", "ENOENT", "ENOSPC"];
    1 + codes.iter().position(|&code| code == word).unwrap() as u8
}

fn call(text: &str) -> Op {
    let (word, operand) = text.split_once(' ').unwrap_or((text, ""));
    let operands: Vec<Vec<u8>> = operand.split(' ').map(bytes).collect();
    match (word, &operands[..]) {
        ("allow", [id]) => Op::Allow(id.clone()),
        ("deny", [id]) => Op::Deny(id.clone()),
        ("drop", [id]) => Op::Drop(id.clone()),
        ("done", _) => Op::Done,
        ("failed", _) => Op::Failed(code(operand)),
        ("list", [id, path_id, own_id, name]) => Op::List(Entry {
            id: id.clone(),
            path_id: path_id.clone(),
            own_id: own_id.clone(),
            name: name.clone(),
            ..Entry::default()
        }),
        ("nolist", [id, fid, word]) => {
            let code = code(std::str::from_utf8(word).unwrap());
            Op::ListFailed { id: id.clone(), fid: fid.clone(), code }
        }
        ("home", [id, path]) => Op::Home { id: id.clone(), path: path.clone() },
        ("part", [bytes]) => Op::Part(bytes.clone()),
        ("last", [bytes]) => Op::LastPart(bytes.clone()),
        ("unlisted", _) => Op::Unlisted,
        _ => panic!("no such call: {text}"),
    }
}

/// The frame of an item of order 14's page: `send ID`, `finish ID`, `cancel ID`, `file ID FID` with the name `/nz`, `data ID FID BYTES` and
/// `end ID FID BYTES`; with a word more of fields; `receive ID` for one path, `path ID FID` for it and for a request; anything else
/// stands for its bytes.
pub fn session_item(item: &str) -> Vec<u8> {
    let words: Vec<&str> = item.split(' ').collect();
    let encoded = |text: &str| {
        let mut out = vec![0; text.len().div_ceil(3) * 4];
        base64::encode(text.as_bytes(), &mut out);
        String::from_utf8(out).unwrap()
    };
    let fields = match words[..] {
        [action @ ("send" | "finish" | "cancel"), id] => format!("ac={action};id={id}"),
        [action @ "send", id, more] => format!("ac={action};id={id};{more}"),
        ["receive", id] => format!("ac=receive;id={id};sz=1"),
        ["file" | "path", id, fid] => format!("ac=file;id={id};fid={fid};n={}", encoded("/nz")),
        ["data", id, fid, data] => format!("ac=data;id={id};fid={fid};d={}", encoded(data)),
        ["end", id, fid] => format!("ac=end_data;id={id};fid={fid}"),
        ["end", id, fid, data] => format!("ac=end_data;id={id};fid={fid};d={}", encoded(data)),
        _ => return bytes(item),
    };
    format!("\x1b]5113;{fields}\x1b\\").into_bytes()
}

/// The recording of order 11's short form: items parted by a comma and a blank. `junk` stands for noise, `refused frame` for a frame
/// that is refused. Panics at what is no item.
pub fn window(items: &str) -> Vec<u8> {
    items.split(", ").filter(|item| !item.is_empty()).flat_map(window_item).collect()
}

fn window_item(item: &str) -> Vec<u8> {
    let words: Vec<Vec<u8>> = item.split(' ').map(bytes).collect();
    let words: Vec<&[u8]> = words.iter().map(Vec::as_slice).collect();
    let number = |word: &[u8]| std::str::from_utf8(word).unwrap().parse().unwrap();
    let of = |action, id| Command { action, id, ..Command::default() };
    let file = |id, fid| Command { fid, name: b"/", ..of("file", id) };
    let command = match words[..] {
        [b"junk"] => return bytes("$ ls<0D><0A>^[[0m^[]0;t^[\\"),
        [b"refused", b"frame"] => return bytes("^[]5113;q=3^[\\"),
        [b"s", id] => of("send", id),
        [b"x", id] => of("cancel", id),
        [b"c", id] => of("finish", id),
        [b"R", id, paths] => Command { size: number(paths), ..of("receive", id) },
        [b"f", id, fid] => file(id, fid),
        [b"f", id, fid, size] => Command { size: number(size), ..file(id, fid) },
        [b"D", id, fid] => Command { file_type: FileType::Directory, ..file(id, fid) },
        [b"d", id, fid] => Command { fid, ..of("data", id) },
        [b"d", id, fid, data] => Command { fid, data, ..of("data", id) },
        [b"e", id, fid] => Command { fid, ..of("end_data", id) },
        [b"e", id, fid, data] => Command { fid, data, ..of("end_data", id) },
        _ => panic!("no such item: {item}"),
    };
    command.frame().unwrap()
}

/// The signature of order 13's `H(SIZE)`, `H(SIZE, FIELD VALUE)`, behind it ` + N` for N more bytes or ` - N` for N less. Panics at what is
/// none.
pub fn signature(text: &str) -> Vec<u8> {
    let number = |text: &str| text.parse::<u32>().unwrap();
    let (inner, behind) = text.strip_prefix("H(").unwrap().split_once(')').unwrap();
    let (size, field) = inner.split_once(", ").unwrap_or((inner, "version 0"));
    let (field, value) = field.split_once(' ').unwrap();
    let names = ["version", "checksum_type", "strong_hash_type", "weak_hash_type"];
    let mut kinds = [0; 4];
    kinds[names.iter().position(|name| *name == field).unwrap()] = number(value) as u16;
    let mut all = layout::header(kinds, number(size));
    let len = match behind.trim().split_once(' ') {
        Some(("+", more)) => all.len() + number(more) as usize,
        Some(("-", less)) => all.len() - number(less) as usize,
        _ => all.len(),
    };
    all.resize(len, 0);
    all
}

/// The delta of order 13's operations, parted by a comma and a blank: `B I`, `R I N`, `D BYTES`, `# BYTES`; `raw BYTES` stands for
/// themselves. Panics at what is none.
pub fn delta(items: &str) -> Vec<u8> {
    let operation = |item: &str| {
        let words: Vec<&str> = item.split(' ').collect();
        let payload = bytes(words.get(1).unwrap_or(&""));
        match words[..] {
            ["B", index] => layout::block(index.parse().unwrap()),
            ["R", first, more] => layout::blocks(first.parse().unwrap(), more.parse().unwrap()),
            ["D", ..] => layout::data(&payload),
            ["#", ..] => layout::hash(&payload),
            ["raw", ..] => payload,
            _ => panic!("no such operation: {item}"),
        }
    };
    items.split(", ").filter(|item| !item.is_empty()).flat_map(operation).collect()
}
