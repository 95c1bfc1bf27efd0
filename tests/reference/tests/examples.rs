//! Runs the examples of the papers through the reference. Each line's expected side was copied from
//! a paper, or for document 01's cases written from its rules; none was made by the program.

mod running;

use reference::console::{self, Console};
use reference::notation::bytes;
use reference::receiver::{base64, command, name, Numbers};
use reference::replay::Replay;
use reference::script::{self, Op};
use running::{run, run_on};

fn read(text: &str) -> String {
    let mut scratch = [0; 6144];
    let refusal = command::read(&bytes(text), &mut scratch).err();
    refusal.map_or(0, |refusal| refusal as u8).to_string()
}

/// Whether it is one of the numbers into which order 4 split 6.
fn of_order_4(number: &str) -> bool {
    (61..=67).any(|split| number == split.to_string())
}

fn carry(pieces: &str) -> Vec<u8> {
    let mut console = Console::default();
    for piece in pieces.split(" | ") {
        let mut rest = bytes(piece);
        while !rest.is_empty() {
            let answer = console.apply(&Op::Feed(rest.clone())).unwrap();
            rest.drain(..answer.consumed);
        }
    }
    let carry = console.carry();
    let len = carry.iter().rposition(|&b| b != 0xa5).map_or(0, |last| last + 1);
    carry[..len].to_vec()
}

/// Replays the recording in pieces of each of several sizes; the replies must be the same.
fn replay(recording: &str) -> Vec<u8> {
    let bytes = bytes(recording);
    let replies = |step| {
        let (mut replay, mut out) = (Replay::default(), Vec::new());
        bytes.chunks(step).for_each(|piece| replay.take(piece, &mut out));
        out
    };
    let whole = replies(bytes.len().max(1));
    assert!((1..20).all(|step| replies(step) == whole));
    whole
}

/// Checks each line of a file and gives their number.
fn check(file: &str) -> usize {
    let lines = file.lines().filter(|line| !line.starts_with('#'));
    let mut count = 0;
    for line in lines {
        let (given, expected) = line.split_once(" =>").unwrap();
        let expected = expected.strip_prefix(' ').unwrap_or(expected);
        let (kind, given) = given.split_once(' ').unwrap();
        match kind {
            "read" if expected == "6" => assert!(of_order_4(&read(given)), "{line}"),
            "read" | "read4" => assert_eq!(read(given), expected, "{line}"),
            "carry" => assert_eq!(carry(given), bytes(expected), "{line}"),
            "run" | "run5" => assert_eq!(run(given), expected, "{line}"),
            "replay" => assert_eq!(replay(given), bytes(expected), "{line}"),
            "name" | "name2" => assert_eq!(name::good(&bytes(given)), expected == "good", "{line}"),
            _ => panic!("no such kind: {line}"),
        }
        count += 1;
    }
    count
}

#[test]
fn the_readings() {
    assert_eq!(check(include_str!("readings.txt")), READINGS);
}

#[test]
fn document_01() {
    assert_eq!(check(include_str!("document01.txt")), DOCUMENT);
}

/// The page's places for a sequence: after `/` and after `~/a`, each at the end and with `/z` behind it.
fn names_with(sequence: &[u8]) -> Vec<Vec<u8>> {
    let places = [("/", ""), ("/", "/z"), ("~/a", ""), ("~/a", "/z")];
    places.iter().map(|(a, b)| [a.as_bytes(), sequence, b.as_bytes()].concat()).collect()
}

/// What a file command with this name gives in an open session.
fn run_file(name: &[u8]) -> String {
    let mut encoded = vec![0; name.len().div_ceil(3) * 4];
    base64::encode(name, &mut encoded);
    let encoded = String::from_utf8(encoded).unwrap();
    let file = format!("^[]5113;ac=file;id=m;fid=a;n={encoded}^[\\");
    run(&format!("^[]5113;ac=send;id=m^[\\ | [allow m] | {file}"))
}

#[test]
fn the_edges_of_order_2() {
    let mut count = 0;
    for line in include_str!("order02.txt").lines().filter(|line| !line.starts_with('#')) {
        let (words, sequences) = line.split_once(": ").unwrap();
        let good = words == "good";
        assert!(good || words.starts_with("bad "), "{line}");
        let last = if good { "ask open" } else { "status EINVAL/a" };
        for notation in sequences.split("  ") {
            let byte = |hex| u8::from_str_radix(hex, 16).unwrap();
            let sequence: Vec<u8> = notation.split(' ').map(byte).collect();
            for name in names_with(&sequence) {
                assert_eq!(name::good(&name), good, "{notation}");
                assert_eq!(run_file(&name), format!("asked | ok OK | {last}"), "{notation}");
            }
            count += 1;
        }
    }
    assert_eq!(count, ORDER_2);
}

#[test]
fn an_overlong_slash() {
    assert!(!name::good(b"/..\xc0\xafx"));
    assert!(!name::good(b"/a\xc0\xaf.."));
}

/// The page's texts, after `5113;ac=send;id=m;` where no ac or id is shown.
#[test]
fn the_lines_of_order_4() {
    let lines = include_str!("order04.txt").lines().filter(|line| !line.starts_with('#'));
    let mut count = 0;
    for example in lines.flat_map(|line| line.split("  ")).filter(|example| !example.is_empty()) {
        let (text, number) = example.trim_start().split_once(" => ").unwrap();
        let shown =
            text.split(';').any(|field| field.starts_with("ac=") || field.starts_with("id="));
        let before = if shown { "5113;" } else { "5113;ac=send;id=m;" };
        assert_eq!(read(&format!("{before}{text}")), number, "{example}");
        count += 1;
    }
    assert_eq!(count, ORDER_4);
}

/// What a text leaves in the scratch, first filled with `.`, trailing `.` left out.
fn scratch(text: &str) -> Vec<u8> {
    let mut scratch = [b'.'; 6144];
    let _ = command::read(&bytes(text), &mut scratch);
    let len = scratch.iter().rposition(|&b| b != b'.').map_or(0, |last| last + 1);
    scratch[..len].to_vec()
}

/// Nothing of a refused value is decoded, and what was accepted before it stands.
#[test]
fn a_refused_value_leaves_the_scratch() {
    for value in
        ["st=AQ", "st=AQIDA=!=", "st=AQID!A==", "st=AQIDAR==", "sz=x", "q=3", "ac=x", "pw=!"]
    {
        assert_eq!(scratch(&format!("5113;id=m;n=YWJj;{value};d=YWJj")), b"abc", "{value}");
    }
}

/// A feed refused for a value consumes the text, sends nothing and leaves the session.
#[test]
fn a_refused_value_changes_no_session() {
    let send = "^[]5113;ac=send;id=m^[\\";
    let bad = ["zip=zlib", "pw=!", "sz=", "q=3", "d=AQ", "d=AAA!", "d=AR=="];
    for (value, number) in bad.iter().zip(61..) {
        let cancel = format!("^[]5113;ac=cancel;id=m;{value}^[\\");
        let results = format!("asked | refused {number} | ok OK");
        assert_eq!(run(&format!("{send} | {cancel} | [allow m]")), results);
    }
}

/// Order 2 touches the names of files alone.
#[test]
fn what_is_only_read_may_be_any_bytes() {
    // C0 AF and 80.
    for value in ["wK8=", "gA=="] {
        for key in ["n", "st", "d"] {
            assert_eq!(read(&format!("5113;ac=status;id=m;{key}={value}")), "0");
        }
        let send = format!("^[]5113;ac=send;id=m;n={value};st={value}^[\\");
        assert_eq!(run(&send), "asked");
    }
}

#[test]
fn the_scripted_console() {
    let file = include_str!("drive.txt");
    let mut lines = file.lines().skip(1);
    let hex = lines.next().unwrap();
    let script: Vec<u8> = (0..hex.len() / 2)
        .map(|i| u8::from_str_radix(&hex[2 * i..2 * i + 2], 16).unwrap())
        .collect();
    let mut out = Vec::new();
    console::run(&script, &mut out);
    let expected: String = lines.map(|line| format!("{line}\n")).collect();
    assert_eq!(String::from_utf8(out).unwrap(), expected);
}

/// The numbers as the table writes them.
fn numbers(console: &Console) -> String {
    let shown = |numbers: Numbers| format!("{} {}", numbers.started, numbers.done_bytes);
    console.numbers(b"m").map_or("-".into(), shown)
}

#[test]
fn the_table_of_order_10() {
    let mut console = Console::default();
    assert_eq!(numbers(&console), "-");
    run_on(&mut console, "^[]5113;ac=send;id=m^[\\ | [allow m]");
    let mut count = 0;
    for row in include_str!("order10.txt").lines().filter(|line| !line.starts_with('#')) {
        let [_, items, results, expected] = row.split(" => ").collect::<Vec<_>>()[..] else {
            panic!("no row: {row}");
        };
        assert_eq!(run_on(&mut console, items), results, "{row}");
        assert_eq!(numbers(&console), expected, "{row}");
        count += 1;
    }
    assert_eq!(count, ORDER_10);
}

/// The example of order 10's page, and what `y` must not change: the text of the latest feed.
#[test]
fn the_numbers_in_a_script() {
    let feed = |text: &str| Op::Feed(bytes(&format!("^[]5113;{text}^[\\")));
    let (m, look) = (b"m".to_vec(), Op::Numbers(b"m".to_vec()));
    let first = [look.clone(), feed("ac=send;id=m"), look.clone(), Op::Allow(m), look.clone()];
    let file = [feed("ac=file;id=m;fid=a;n=L256"), Op::Done, look.clone()];
    let end = [feed("ac=end_data;id=m;fid=a;d=YWJj"), Op::Done, look.clone(), Op::Text];
    let others = ["", "mm", "M"].map(|id| Op::Numbers(id.into())).to_vec();
    let long = Op::Numbers(vec![b'm'; 255]);
    let ops = [&first[..], &file, &end, &others, &[long]].concat();
    let mut out = Vec::new();
    console::run(&script::encode(&ops), &mut out);
    let lines = String::from_utf8(out).unwrap();
    let lines: Vec<&str> = lines.lines().filter(|line| line.starts_with(['y', 't'])).collect();
    let text = "t 353131333b61633d656e645f646174613b69643d6d3b6669643d613b643d59574a6a";
    let none = ["y none"; 4];
    assert_eq!(lines[..4], ["y none", "y 0 0", "y 0 0", "y 1 0"]);
    assert_eq!(lines[4..6], ["y 0 3", text]);
    assert_eq!(lines[6..], none);
}

#[test]
fn the_33rd_file() {
    let mut items = vec!["^[]5113;ac=send;id=m^[\\".to_string(), "[allow m]".into()];
    let mut results = vec!["asked".to_string(), "ok OK".into()];
    for i in 0..33 {
        items.push(format!("^[]5113;ac=file;id=m;fid={i};n=L256^[\\"));
        if i < 32 {
            items.push("[done]".into());
            results.extend(["ask open".into(), format!("status STARTED/{i}")]);
        }
    }
    results.push("status EMFILE/32".into());
    assert_eq!(run(&items.join(" | ")), results.join(" | "));
}

#[test]
fn bad_scripts() {
    for (script, expected) in [
        (&b"Z"[..], "bad script\n"),
        (b"e\x05", "bad script\n"),
        (b"f\x02\x00a", "bad script\n"),
        (b"y\x00y\x02m", "y none\nbad script\n"),
        (&[b'n'; 65_537], "bad script\n"),
        (&[b'n'; 65_536], ""),
    ] {
        let mut out = Vec::new();
        console::run(script, &mut out);
        assert_eq!(String::from_utf8(out).unwrap(), expected);
    }
}

/// The number of examples in each file, so that none is lost unseen.
const READINGS: usize = 162;
const DOCUMENT: usize = 18;
const ORDER_2: usize = 60;
const ORDER_4: usize = 47;
const ORDER_10: usize = 12;
