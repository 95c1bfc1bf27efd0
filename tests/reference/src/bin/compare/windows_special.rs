//! Pairs of recordings that no seed makes, or few: order 11's examples in each room and exchanged, each order of a few commands, the
//! most starts, the most parts, the longest recordings, parts about the limit, receive sessions, scripts that are none.

use crate::dragging;
use crate::framing::framed;
use crate::judge::{Case, Tally};
use crate::special::named;
use crate::windows_cases::{joined, judge_alike, judge_missing, judge_pair, judge_script, mend};
use reference::console::LONGEST_SCRIPT;
use reference::notation::window;
use reference::windows::script::{encode, HEAD, LIST};
use reference::windows::{rows, ROW};

/// Judges them all.
pub fn judge(tally: &mut Tally) {
    scripts().into_iter().for_each(|case| judge_script(tally, case));
    pairs().iter().for_each(|case| judge_pair(tally, case));
    alike().iter().for_each(|case| judge_alike(tally, case));
    judge_missing(tally);
}

type Pair = (Vec<u8>, Vec<u8>);

pub fn scripts() -> Vec<Case> {
    let mut all: Vec<Vec<u8>> = examples().iter().flat_map(in_rooms).collect();
    let known = [parts(), orders(), receives(), dragged()].concat();
    all.extend(known.iter().map(|(first, second)| encode(LIST, first, second)));
    let half = (LONGEST_SCRIPT - HEAD) / 2;
    let (many, other) = (most_starts(half, b'm'), most_starts(half, b'n'));
    all.extend(in_rooms(&(many.clone(), many.clone())));
    all.extend(in_rooms(&(many, other)));
    for part in ["", "x", "{A*4096}", "{A*4095}"] {
        all.push(encode(LIST, &most_parts(half, part), &most_parts(half, "A")));
    }
    all.extend(no_scripts());
    let rooms = [0xff, 0x100, 0xffff, 0x01_0000, 0xff_ffff, LIST - 1, LIST, LIST + 1];
    let three = &examples()[14];
    all.extend(rooms.map(|room| encode(room, &three.0, &three.1)));
    named("window", all)
}

/// Under six bytes, a first recording that ends at the end or behind it, scripts about their longest.
fn no_scripts() -> Vec<Vec<u8>> {
    let mut all: Vec<Vec<u8>> = (0..8).map(|len| vec![0; len]).collect();
    let recording = window("s m, f m a");
    for claimed in [recording.len() - 1, recording.len(), recording.len() + 1, 0xff_ffff] {
        let mut script = encode(100, &recording, &[]);
        script[3..HEAD].copy_from_slice(&(claimed as u32).to_le_bytes()[..3]);
        all.push(script);
    }
    for len in [LONGEST_SCRIPT - 1, LONGEST_SCRIPT, LONGEST_SCRIPT + 1, 70_000] {
        let filled = padded(&recording, len - HEAD - recording.len());
        all.push(encode(100, &filled, &recording));
        all.push(encode(100, &recording, &filled));
    }
    all
}

/// Windows beside the same with texts of drag and drop before each frame: closed, abandoned, too long, and what almost is one.
fn dragged() -> Vec<Pair> {
    let plain = window("s m, f m a, d m a ab, e m a cd, f m b, d m b x, c m");
    let texts = [
        framed(b"72;t=a;x"),
        framed(b"72;5113;ac=cancel;id=m"),
        b"\x1b]72;t=a".to_vec(),
        b"\x1b]72;t=a\x1bx".to_vec(),
        framed(&dragging::long(8192)),
        framed(&dragging::long(8193)),
        framed(b"720;"),
        framed(b"72"),
    ];
    let mixed = |text: &Vec<u8>| {
        let frames = plain.split_inclusive(|&byte| byte == b'\\');
        frames.flat_map(|frame| [text, frame].concat()).collect::<Vec<u8>>()
    };
    let unfinished = |text: &Vec<u8>| [mixed(text), b"\x1b]72;t=a".to_vec()].concat();
    let pairs = texts.iter().map(|text| (unfinished(text), plain.clone()));
    pairs.flat_map(|(mixed, plain)| [(mixed.clone(), plain.clone()), (plain, mixed)]).collect()
}

/// For the tool.
pub fn pairs() -> Vec<Case> {
    let mut all = [examples(), dragged()].concat();
    let recording = window("s m, f m a, d m a abc");
    for len in [65_535, 65_536, 65_537, 70_000, 200_000] {
        let (head, tail) = (padded(&recording, len), ending(len, &recording));
        all.extend([(head.clone(), recording.clone()), (recording.clone(), head.clone())]);
        all.extend([(tail.clone(), recording.clone()), (recording.clone(), tail)]);
        all.push((head.clone(), head));
    }
    let many = most_starts(65_536, b'm');
    all.extend([(many.clone(), most_starts(65_536, b'n')), (many.clone(), many)]);
    let parts = ["", "x", "{A*4096}", "{A*4095}"].map(|part| most_parts(65_536, part));
    for first in &parts {
        all.extend(parts.iter().map(|second| (first.clone(), second.clone())));
    }
    all.push((Vec::new(), Vec::new()));
    named("windows", all.iter().map(|(first, second)| joined(first, second)).collect())
}

/// The examples' first recordings beside themselves and their mended form.
fn alike() -> Vec<Case> {
    let both = |(first, _): &Pair| [joined(first, first), joined(first, &mend(first))];
    named("alike", examples().iter().flat_map(both).collect())
}

/// The page's.
pub fn examples() -> Vec<Pair> {
    let page = include_str!("../../../tests/order11.txt").lines();
    let given =
        page.filter(|line| !line.starts_with('#')).filter_map(|line| line.split_once(" =>"));
    let pairs = given.filter_map(|(given, _)| given.split_once(" | "));
    pairs.map(|(first, second)| (window(first), window(second))).collect()
}

/// A pair, and the same exchanged, in every room on both sides of what it needs.
fn in_rooms((first, second): &Pair) -> Vec<Vec<u8>> {
    let count = rows(first, second).map_or(0, |rows| rows.len());
    let needed = ROW * count;
    let rooms =
        [needed.saturating_sub(6), needed.saturating_sub(1), needed, needed + 1, count, LIST];
    let both = |room| [encode(room, first, second), encode(room, second, first)];
    rooms.into_iter().flat_map(both).collect()
}

/// Parts on both sides of 4,096 bytes and of a declared size, beside what is then handed over.
fn parts() -> Vec<Pair> {
    let mut all = Vec::new();
    for len in [4095, 4096, 4097] {
        for action in ["d", "e"] {
            let first = format!("s m, f m a, d m a ab, {action} m a {{A*{len}}}, d m a c");
            all.push((window(&first), window("s m, f m a, d m a ab")));
            all.push((window(&first), window(&format!("s m, f m a, d m a ab{{A*{}}}", 4094))));
        }
    }
    for size in 1..6 {
        for second in ["d m a cd", "e m a cd", "e m a c", "e m a", "d m a cde, e m a"] {
            let first = window(&format!("s m, f m a {size}, d m a ab, {second}, d m a x"));
            all.push((first.clone(), window("s m, f m a, d m a ab")));
            all.push((window("s m, f m a, d m a abcd"), first));
        }
    }
    all
}

/// Each order of a few commands, beside a window in which all of them do something.
fn orders() -> Vec<Pair> {
    let whole = window("s m, f m a, d m a ab, e m a cd, x m, s m, f m a, d m a ab");
    let items =
        ["s m", "f m a", "d m a ab", "e m a cd", "x m", "c m", "f m aa", "R m 1", "s mm, f mm a"];
    let mut all = Vec::new();
    for a in items {
        for b in items {
            for c in ["d m a ab", "s m, f m a", "f m a, d m a cd", "e m a"] {
                all.push((window(&format!("s m, {a}, {b}, {c}")), whole.clone()));
                all.push((whole.clone(), window(&format!("s m, f m a, {a}, {b}, {c}"))));
            }
        }
    }
    all
}

/// Receive sessions, naming or allowed, that take none to five of the places; behind each command to all of them a send session.
fn receives() -> Vec<Pair> {
    let all = window("s m, f m a, d m a ab, f m 1");
    let mut pairs = Vec::new();
    for begun in ["R {} 1", "R {} 1, f {} p", "R {} 2, f {} p", "R {} 0"] {
        for then in ["", "f {} p", "f {} a, f {} q", "s {}", "R {} 1", "x {}", "c {}", "d {} p ab"]
        {
            for count in 0..6 {
                let each = |items: &str| {
                    let items = (1..=count).map(|id: u8| items.replace("{}", &id.to_string()));
                    window(&items.collect::<Vec<_>>().join(", "))
                };
                let send = window("s m, f m a, d m a ab, f m 1, f 1 m, d 1 m x");
                pairs.push(([each(begun), each(then), send].concat(), all.clone()));
            }
        }
    }
    pairs
}

/// A file of as many such parts as fit into so many bytes.
fn most_parts(most: usize, part: &str) -> Vec<u8> {
    let mut all = window("s m, f m a");
    let frame = window(format!("d m a {part}").trim_end());
    while all.len() + frame.len() <= most {
        all.extend_from_slice(&frame);
    }
    all
}

/// As many starts as fit into so many bytes, in sessions of this id.
fn most_starts(most: usize, id: u8) -> Vec<u8> {
    const FIDS: &[u8; 32] = b"abcdefghijklmnopqrstuvwxyz012345";
    let id = id as char;
    let files = FIDS.iter().map(|&fid| format!("f {id} {}", fid as char));
    let items: Vec<String> =
        [format!("s {id}")].into_iter().chain(files).chain([format!("x {id}")]).collect();
    let frames: Vec<Vec<u8>> = items.iter().map(|item| window(item)).collect();
    let mut all = Vec::new();
    for frame in frames.iter().cycle() {
        if all.len() + frame.len() > most {
            break;
        }
        all.extend_from_slice(frame);
    }
    all
}

/// The recording and then noise, of so many bytes.
fn padded(recording: &[u8], len: usize) -> Vec<u8> {
    let mut all = recording.to_vec();
    all.resize(len, b'x');
    all
}

/// Noise and then the recording, of so many bytes.
fn ending(len: usize, recording: &[u8]) -> Vec<u8> {
    [&vec![b'x'; len - recording.len()], recording].concat()
}

#[cfg(test)]
mod tests {
    use super::*;
    use reference::windows::heard::heard;
    use reference::windows::script::parts;

    #[test]
    fn the_scripts_are_what_they_are_called() {
        let none = scripts().iter().filter(|case| parts(&case.input).is_none()).count();
        // Six short ones, two lengths behind the end, four that are too long.
        assert_eq!(none, 6 + 2 + 4);
        assert_eq!(examples().len(), 19);
        let (many, other) = (most_starts(65_536, b'm'), most_starts(65_536, b'n'));
        assert!(rows(&many, &other).unwrap().len() > 3_600);
        let content = |part: &str| heard(&most_parts(65_536, part))[0].content.len();
        assert_eq!((content("x"), content("{A*4096}")), (1_925, 11 * 4096));
    }
}
