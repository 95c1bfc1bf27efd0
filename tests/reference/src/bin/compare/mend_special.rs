//! Recordings to mend that no seed makes, or few: order 9's examples in each room, every byte behind a 1B, every listed value,
//! beginnings of a command text, a recording cut off at each place, the most rows, the longest recordings, scripts that are none.

use crate::bad_values;
use crate::dragging;
use crate::fields::Fields;
use crate::framing::framed;
use crate::judge::{Case, Tally};
use crate::mend_cases::{judge_recording, judge_script};
use crate::special::named;
use reference::console::LONGEST_SCRIPT;
use reference::mend::script::{encode, HEAD, LIST, OUTPUT};
use reference::mend::{mended, ROW};
use reference::notation::bytes;

const GOOD: &[u8] = b"\x1b]5113;ac=send;id=m\x1b\\";

/// Judges them all.
pub fn judge(tally: &mut Tally) {
    scripts().into_iter().for_each(|case| judge_script(tally, case));
    recordings().iter().for_each(|case| judge_recording(tally, case));
}

pub fn scripts() -> Vec<Case> {
    let whole = |recording: Vec<u8>| encode(OUTPUT, LIST, &recording);
    let mut all: Vec<Vec<u8>> = examples().iter().flat_map(|given| in_rooms(given)).collect();
    all.extend(cuts().into_iter().map(whole));
    all.extend([escapes(), values(), beginnings(), lengths(), dragged()].map(whole));
    all.extend([65_529, 65_530].map(most_rows).map(whole));
    all.extend([0, 1, 5, 6, 7].map(|len| vec![0; len]));
    let rooms = [0xff, 0xffff, 0xff_ffff, OUTPUT - 1, OUTPUT, OUTPUT + 1, LIST - 1, LIST, LIST + 1];
    all.extend(rooms.map(|room| encode(room, room, &kept(2000))));
    for len in [LONGEST_SCRIPT - 1, LONGEST_SCRIPT, LONGEST_SCRIPT + 1, 70_000] {
        all.push(encode(OUTPUT, LIST, &kept(len - HEAD)));
        all.push(encode(0, 3, &vec![b'x'; len - HEAD]));
    }
    named("mender", all)
}

/// For the tool.
pub fn recordings() -> Vec<Case> {
    let mut all = examples();
    for len in [65_535, 65_536, 65_537, 70_000, 200_000] {
        all.extend([vec![b'x'; len], kept(len), most_rows(len)]);
        // A frame that ends with the recording, and one that does not.
        all.push([&vec![b'x'; len - GOOD.len()], GOOD].concat());
        all.push([&vec![b'x'; len - GOOD.len() + 1], &GOOD[..GOOD.len() - 1]].concat());
    }
    all.extend([Vec::new(), values(), escapes(), beginnings(), dragged()]);
    named("mend", all)
}

/// The page's.
fn examples() -> Vec<Vec<u8>> {
    let page = include_str!("../../../tests/order09.txt").lines();
    let given =
        page.filter(|line| !line.starts_with('#')).filter_map(|line| line.split_once(" =>"));
    let good = "E]5113;ac=send;id=mE\\";
    given.map(|(text, _)| bytes(&text.replace('G', good).replace('E', "^["))).collect()
}

/// A recording in every room on both sides of what it needs.
fn in_rooms(recording: &[u8]) -> Vec<Vec<u8>> {
    let needed = mended(recording).map(|mended| (mended.kept.len(), ROW * mended.rows.len()));
    let (output, list) = needed.unwrap_or_default();
    let near = |room: usize| [room.saturating_sub(1), room, room + 1];
    let near_list = [list.saturating_sub(3), list / ROW].into_iter().chain(near(list));
    let rooms = near(output).into_iter().flat_map(|a| near_list.clone().map(move |b| (a, b)));
    rooms.map(|(a, b)| encode(a, b, recording)).collect()
}

/// A recording with all kinds of stretches, cut off at each place.
fn cuts() -> Vec<Vec<u8>> {
    let notation =
        "a^[]5113;ac=send;id=m^[\\^[]0;t^[\\b^[]5113;ab^[^[]5113;q=3^[\\^[]5113;^[]51^[[0m\
        ^[]5113;ac=end_data;id=m;fid=a^[\\";
    let whole = bytes(notation);
    (0..=whole.len()).map(|len| whole[..len].to_vec()).collect()
}

/// Every byte behind a 1B: outside, in a command text, in another text and in one that may become a command; a good frame behind it.
fn escapes() -> Vec<u8> {
    let mut all = Vec::new();
    for byte in 0..=255 {
        for before in [
            &b""[..],
            b"\x1b]5113;ac=send;id=m",
            b"\x1b]5113;",
            b"\x1b]0;t",
            b"\x1b]51",
            b"\x1b]72;t=a",
        ] {
            all.extend([before, &[0x1b, byte], GOOD].concat());
        }
    }
    all.truncate(OUTPUT - HEAD);
    all
}

/// A frame for each listed value.
fn values() -> Vec<u8> {
    let frame = |(key, value): (&str, Vec<u8>)| {
        let mut fields = Fields::new("status", b"m").with("st", b"AQID");
        fields.0.retain(|(known, _)| known != key);
        framed(&fields.with(key, &value).text())
    };
    bad_values::listed().into_iter().flat_map(frame).collect()
}

/// Each beginning of some texts with each end, a good frame between them.
fn beginnings() -> Vec<u8> {
    const ENDS: [&[u8]; 6] = [b"\x1b\\", b"\x1b", b"\x1b\x1b", b"\x1bx", b"\x1b[0m", b""];
    let mut all = Vec::new();
    for whole in [&b"5113;ac=send;id=m"[..], b"5113 ;x", b"05113;x", b"5113:x", b"72;t=a", b"511;x"]
    {
        for len in 0..=whole.len() {
            for end in ENDS {
                all.extend([b"\x1b]", &whole[..len], end, GOOD].concat());
            }
        }
    }
    all
}

/// Texts on both sides of 8,192 bytes: closed, abandoned, and no command; the last one unfinished.
fn lengths() -> Vec<u8> {
    let text = |len: usize| {
        let mut text = b"5113;ac=send;id=m;x=".to_vec();
        text.resize(len, b'A');
        text
    };
    let mut all = Vec::new();
    for len in [8192, 8193] {
        all.extend(framed(&text(len)));
        all.extend([b"\x1b]", &text(len)[..], b"\x1bx"].concat());
        all.extend([b"\x1b]0", &text(len)[..], b"\x1b\\"].concat());
    }
    all.extend([b"\x1b]", &text(8193)[..]].concat());
    all
}

/// Texts of drag and drop and what almost is one, behind them long ones: closed, abandoned, with noise between and a good frame.
fn dragged() -> Vec<u8> {
    let mut all = dragging::listed();
    for len in [8192, 8193] {
        let text = dragging::long(len);
        all.extend([&b"x"[..], &framed(&text), b"y\x1b]", &text, b"\x1b[0m", GOOD].concat());
    }
    all.extend([&framed(b"72;t=a")[..], b"\x1b]72;t=a"].concat());
    all
}

/// The page's recording with the most rows, or the beginning of a longer one.
fn most_rows(len: usize) -> Vec<u8> {
    let mut all = b"x".to_vec();
    while all.len() + 8 <= len - 7 {
        all.extend_from_slice(b"\x1b]5113;\x1b");
    }
    all.resize(len, b'x');
    all
}

/// Good frames alone, of so many bytes.
fn kept(len: usize) -> Vec<u8> {
    let count = len / GOOD.len();
    let mut all = GOOD.repeat(count - 1);
    let mut last = Fields::new("send", b"m").with("x", b"").text();
    last.resize(len - all.len() - 4, b'A');
    all.extend(framed(&last));
    all
}

#[cfg(test)]
mod tests {
    use super::*;
    use reference::mend::script::parts;

    #[test]
    fn the_scripts_are_what_they_are_called() {
        let all = scripts();
        let none = all.iter().filter(|case| parts(&case.input).is_none());
        assert_eq!(none.count(), 3 + 4);
        let good = mended(&kept(65_536)).unwrap();
        assert_eq!((good.kept.len(), good.rows), (65_536, vec![]));
        assert_eq!(mended(&most_rows(65_536)).unwrap().rows.len(), 16_383);
    }

    /// The list is truncated nowhere: each kind of row stands in one of the long recordings.
    #[test]
    fn the_long_recordings_fit() {
        for recording in [escapes(), values(), beginnings(), lengths(), dragged()] {
            assert!(recording.len() < LONGEST_SCRIPT - HEAD, "{}", recording.len());
        }
    }
}
