//! Runs the examples of order 9's page through the reference.

use reference::mend::{self, mend, tool};
use reference::notation::bytes;

/// Room for whatever a recording comes to.
const ALL: (usize, usize) = (65_536, 49_152);
const FILL: u8 = 0xa5;

fn recording(notation: &str) -> Vec<u8> {
    bytes(&notation.replace('G', "E]5113;ac=send;id=mE\\").replace('E', "^["))
}

/// What mending gives, as the page writes it; checks all memory that is lent.
fn shown(recording: &[u8], rooms: (usize, usize)) -> String {
    let (mut output, mut list) = (vec![FILL; rooms.0], vec![usize::from(FILL); rooms.1]);
    let result = mend(recording, &mut output, &mut list);
    let (kept, rows) = result.unwrap_or((0, 0));
    assert!(output[kept..].iter().all(|&byte| byte == FILL));
    assert!(list[3 * rows..].iter().all(|&number| number == FILL.into()));
    if let Err(refusal) = result {
        return (refusal as u8).to_string();
    }
    let rows: Vec<&[usize]> = list.chunks_exact(3).take(rows).collect();
    assert_eq!(output[..kept], without(recording, &rows));
    let rows: Vec<String> =
        rows.iter().map(|row| format!("{}:{}:{}", row[0], row[1], row[2])).collect();
    format!("{}  kept {kept}", rows.join(" ")).trim_start().into()
}

/// The recording with the listed stretches taken out. They lie in it one behind another, none empty, and of two that touch not both
/// are outside.
fn without(recording: &[u8], rows: &[&[usize]]) -> Vec<u8> {
    let (mut left, mut at, mut before) = (Vec::new(), 0, 1);
    for row in rows {
        assert!(row[0] >= at && row[1] > 0, "{rows:?}");
        assert!(row[0] > at || before != 0 || row[2] != 0, "{rows:?}");
        left.extend_from_slice(&recording[at..row[0]]);
        (at, before) = (row[0] + row[1], row[2]);
    }
    left.extend_from_slice(&recording[at..]);
    left
}

fn lines(file: &'static str) -> impl Iterator<Item = (&'static str, &'static str)> {
    let lines = file.lines().filter(|line| !line.starts_with('#'));
    lines.map(|line| line.split_once(" => ").unwrap()).map(|(a, b)| (a, b.trim_start()))
}

fn examples() -> Vec<(Vec<u8>, &'static str)> {
    lines(include_str!("order09.txt")).map(|(given, result)| (recording(given), result)).collect()
}

#[test]
fn the_examples() {
    let examples = examples();
    assert_eq!(examples.len(), 21);
    for (recording, expected) in examples {
        assert_eq!(shown(&recording, ALL), expected);
    }
}

/// Each example in the room that it needs, and in one less of either.
#[test]
fn the_examples_in_their_rooms() {
    for (recording, expected) in examples() {
        let (rows, kept) = expected.split_once("kept ").unwrap();
        let (output, list) = (kept.parse().unwrap(), 3 * rows.split_whitespace().count());
        assert_eq!(shown(&recording, (output, list)), expected);
        if output > 0 {
            assert_eq!(shown(&recording, (output - 1, list)), "9");
        }
        if list > 0 {
            assert_eq!(shown(&recording, (output, list - 1)), "9");
        }
    }
}

#[test]
fn the_rooms() {
    let mut count = 0;
    for (given, expected) in lines(include_str!("order09_rooms.txt")) {
        let [notation, output, list] = given.split(", ").collect::<Vec<_>>()[..] else {
            panic!("no such line: {given}");
        };
        let room = |text: &str, all| if text == "all" { all } else { text.parse().unwrap() };
        let rooms = (room(output, ALL.0), room(list, ALL.1));
        assert_eq!(shown(&recording(notation), rooms), expected, "{given}");
        count += 1;
    }
    assert_eq!(count, 7);
}

/// Mended again, nothing is dropped.
#[test]
fn a_mended_recording() {
    for (recording, _) in examples() {
        let kept = mend::mended(&recording).unwrap().kept;
        assert_eq!(shown(&kept, ALL), format!("kept {}", kept.len()));
    }
}

/// The page's recording with the most rows.
#[test]
fn the_most_rows() {
    let recording = ["x", &"\x1b]5113;\x1b".repeat(8191), "xxxxxxx"].concat();
    assert_eq!(recording.len(), 65_536);
    assert_eq!(mend::mended(recording.as_bytes()).unwrap().rows.len(), 16_383);
}

#[test]
fn the_scripted_form() {
    let run = |script: &[u8]| {
        let mut out = Vec::new();
        mend::script::run(script, &mut out);
        String::from_utf8(out).unwrap()
    };
    let script = mend::script::encode(100, 100, &recording("abGE]5113;abcExy"));
    assert_eq!(run(&script), "0 21 3 707 2310\n0 2 0\n23 10 2\n33 3 0\n");
    assert_eq!(run(&[0; 5]), "bad script\n");
    assert!(run(&[0; 6]).starts_with("0 0 0 "));
    assert!(run(&[0; 65_536]).starts_with("9 0 0 "));
    assert_eq!(run(&[0; 65_537]), "bad script\n");
}

#[test]
fn the_tool() {
    let (kept, said) = tool::run(&recording("abGE]5113;abcExy"));
    assert_eq!(kept, recording("G"));
    let lines = "0 2 outside\n23 10 refusal 2\n33 3 outside\n";
    assert_eq!(said, format!("{lines}kept 21 bytes, dropped 15 bytes in 3 stretches\n"));
    let (kept, said) = tool::run(&[b'x'; 65_536]);
    let lines = "0 65536 outside\nkept 0 bytes, dropped 65536 bytes in 1 stretches\n";
    assert_eq!((&kept[..], &said[..]), (&b""[..], lines));
    assert_eq!(tool::run(&[b'x'; 65_537]), (Vec::new(), "refused 17\n".into()));
}
