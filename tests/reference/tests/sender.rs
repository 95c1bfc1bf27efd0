//! Runs the examples of order 1's page through the sender, and what its sentences say besides.

use reference::notation::{bytes, sender_call};
use reference::sender::console::{self, Answer, Console};
use reference::sender::script::{encode, Buffer, Op};
use reference::sender::{Heard, News};

/// The number of examples, so that none is lost unseen.
const EXAMPLES: usize = 14;

/// What a call wrote, after `5113;`, or its refusal, or what a hear told.
fn shown(console: &Console, answer: &Answer) -> String {
    let refusal = match answer {
        Answer::Written(written) => written.err(),
        Answer::Heard(heard) => heard.refusal,
    };
    if let Some(refusal) = refusal {
        return format!("refused {}", refusal as u8);
    }
    match answer {
        Answer::Written(written) => {
            let frame = String::from_utf8(console.frame(written).to_vec()).unwrap();
            let text = frame.strip_prefix("\x1b]5113;").unwrap();
            text.strip_suffix("\x1b\\").unwrap().into()
        }
        Answer::Heard(heard) => told(&heard.news),
    }
}

fn told(news: &News) -> String {
    match news {
        News::Nothing => "nothing".into(),
        News::Ignored => "ignored".into(),
        News::Noted => "noted".into(),
        News::Allowed => "allowed".into(),
        News::Differs { file, .. } => format!("differs {file}"),
        News::FileStopped { file, .. } => format!("stopped {file}"),
        News::SessionStopped { .. } => "stopped".into(),
    }
}

/// Hears a piece until it is consumed.
fn hear(console: &mut Console, mut piece: Vec<u8>) -> String {
    let mut results = Vec::new();
    loop {
        let Some(answer @ Answer::Heard(Heard { consumed, .. })) =
            console.apply(&Op::Hear(piece.clone()))
        else {
            panic!("a hear is answered by what was heard");
        };
        results.push(shown(console, &answer));
        piece.drain(..consumed);
        if piece.is_empty() || consumed == 0 {
            return results.join(" + ");
        }
    }
}

fn item(console: &mut Console, item: &str) -> String {
    match sender_call(item) {
        Op::Hear(piece) => hear(console, piece),
        op => {
            let answer = console.apply(&op).unwrap();
            shown(console, &answer)
        }
    }
}

/// The results of the items and the state after them, as the page writes them.
fn call(items: &str) -> String {
    let mut console = Console::default();
    let results: Vec<String> = items.split(" | ").map(|text| item(&mut console, text)).collect();
    format!("{} => {}", results.join(" | "), console.state())
}

#[test]
fn the_examples_of_the_page() {
    let mut count = 0;
    for line in include_str!("order01.txt").lines().filter(|line| !line.starts_with('#')) {
        let (items, expected) = line.split_once(" ==> ").unwrap();
        assert_eq!(call(items.strip_prefix("call ").unwrap()), expected, "{line}");
        count += 1;
    }
    assert_eq!(count, EXAMPLES);
}

fn output(script: &[u8]) -> String {
    let mut out = Vec::new();
    console::run(script, &mut out);
    String::from_utf8(out).unwrap()
}

/// "Script `s 01 m  h 1f 00 ..` ends with `e 0 0 none ..`".
#[test]
fn the_script_of_the_page() {
    let ok = bytes("^[]5113;ac=status;id=m;st=T0s=^[\\");
    let parts: [&[u8]; 8] = [
        b"s\x01m",
        b"h\x1f\x00",
        &ok,
        b"f\x01a\x03\x00/nz",
        &[3, 0, 0, 0, 0, 0, 0, 0],
        b"l\x03\x00abc",
        b"e",
        b"",
    ];
    let lines = output(&parts.concat());
    let last = "e 0 0 none 1b5d353131333b61633d66696e6973683b69643d6d1b5c 26608 12805 4960 e,e3";
    assert_eq!(lines.lines().last(), Some(last));
    let heads: Vec<&str> = lines.lines().map(|line| &line[..6]).collect();
    assert_eq!(heads, ["s 0 0 ", "h 0 31", "f 0 0 ", "l 0 0 ", "e 0 0 "]);
}

#[test]
fn bad_scripts() {
    for script in ["z", "s", "s\x02m", "f\x00", "f\x00\x01\x00", "p\x01", "h\x01\x00", "b\x01", "E"]
    {
        assert_eq!(output(script.as_bytes()), "bad script\n", "{script}");
    }
    assert_eq!(output(&[b'n'; 65_537]), "bad script\n");
    assert_eq!(output(&[b'n'; 65_536]), "");
    let lines = output(b"tez");
    let lines: Vec<&str> = lines.lines().collect();
    assert_eq!(lines, ["t -", "e 18 0 none - 25172 12805 5226 f", "bad script"]);
}

#[test]
fn short_buffers_come_first() {
    let ops = [
        Op::Lend(Buffer::Out, 8195),
        Op::Send(vec![]),
        Op::Piece(vec![0; 4097]),
        Op::Finish,
        Op::Lend(Buffer::Out, 8196),
        Op::Send(vec![b'i'; 32]),
        Op::Lend(Buffer::Carry, 8191),
        Op::Hear(b"x".to_vec()),
        Op::Lend(Buffer::Carry, 8192),
        Op::Lend(Buffer::Scratch, 6143),
        Op::Hear(vec![]),
        Op::Lend(Buffer::Scratch, 6144),
        Op::Hear(b"x".to_vec()),
    ];
    let lines = output(&encode(&ops));
    let heads: Vec<String> =
        lines.lines().map(|line| line.split(' ').take(3).collect::<Vec<_>>().join(" ")).collect();
    assert_eq!(heads, ["s 9 0", "p 9 0", "e 9 0", "s 0 0", "h 9 0", "h 9 0", "h 0 1"]);
}

#[test]
fn the_33rd_file() {
    let mut items = vec!["snd m".to_string(), "hear OK".into()];
    for i in 0..33 {
        items.extend([format!("file {i} /nz"), "end x".into()]);
    }
    let results = call(&items.join(" | "));
    let (results, state) = results.split_once(" => ").unwrap();
    let last: Vec<&str> = results.rsplit(" | ").take(2).collect();
    assert_eq!(last, ["refused 18", "refused 17"]);
    assert_eq!(state, format!("o{}", ",e1".repeat(32)));
}

/// The longest name that fits, and one more; a size makes the text longer.
#[test]
fn a_text_of_8192_bytes() {
    for (file, fits) in [
        ("file a {/*6123}", true),
        ("file a {/*6124}", false),
        ("file ab {/*6123}", true),
        ("file abc {/*6123}", true),
        ("file abcd {/*6123}", false),
        ("file abc {/*6117} 1", true),
        ("file abc {/*6118} 1", false),
    ] {
        let results = call(&format!("snd m | hear OK | {file}"));
        assert_eq!(results.contains("| ac=file"), fits, "{file}");
        assert_eq!(results.contains("refused 9 => o"), !fits, "{file}");
    }
}

/// "An empty file id is written as it is"; its statuses have no fid, so they are the session's.
#[test]
fn an_empty_file_id() {
    let file = Op::File { fid: vec![], name: b"/nz".to_vec(), size: 0 };
    let mut console = Console::default();
    item(&mut console, "snd m");
    item(&mut console, "hear OK");
    let written = console.apply(&file).unwrap();
    assert_eq!(shown(&console, &written), "ac=file;id=m;n=L256");
    assert_eq!(item(&mut console, "end a"), "ac=end_data;id=m;d=YQ==");
    assert_eq!(item(&mut console, "hear OK=7"), "noted");
    let again = console.apply(&file).unwrap();
    assert_eq!(shown(&console, &again), "refused 17");
    assert_eq!(item(&mut console, "hear EINVAL"), "stopped");
    assert_eq!(console.state(), "x,e1");
}

/// What the sentences say of later statuses: what is stopped stays so, and each is told as the first one.
#[test]
fn statuses_of_what_is_stopped_or_closed() {
    let start = "snd m | hear OK | file a /nz | end abc";
    let wrote =
        "ac=send;id=m | allowed | ac=file;id=m;fid=a;n=L256 | ac=end_data;id=m;fid=a;d=YWJj";
    for (hears, results) in [
        ("hear OK/a=3 | hear OK/a=2", "noted | differs 0 => o,c3"),
        ("hear OK/a=3 | hear EIO/a", "noted | stopped 0 => o,x3"),
        ("hear EIO/a | hear OK/a=3 | hear OK/a", "stopped 0 | noted | differs 0 => o,x3"),
        ("hear EIO/a | hear EIO/a", "stopped 0 | stopped 0 => o,x3"),
        ("hear EIO | hear OK | hear EIO", "stopped | noted | stopped => x,e3"),
        ("hear EIO | hear OK/a=3", "stopped | noted => x,c3"),
        ("hear EIO | hear EIO/a", "stopped | stopped 0 => x,x3"),
        ("hear OK/b=3 | hear EIO/A", "ignored | ignored => o,e3"),
        ("hear STARTED/a=9 | hear /a", "noted | stopped 0 => o,x3"),
    ] {
        assert_eq!(call(&format!("{start} | {hears}")), format!("{wrote} | {results}"));
    }
}
