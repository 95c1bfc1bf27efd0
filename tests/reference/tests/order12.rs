//! Order 12, first half: the lines of its page, and that a text of drag and drop does nothing to a session.

mod running;

use reference::console::Console;
use reference::mend::mended;
use reference::notation::bytes;
use reference::receiver::{base64, Place, Refusal};
use reference::replay::Replay;
use reference::script::{Buffer, Op};
use reference::sender::console::{Answer, Console as Office};
use reference::sender::script::Op as Call;
use reference::windows::rows;
use running::run;

const PAGE: &str = include_str!("order12.txt");
/// The number of lines of each kind, so that none is lost unseen.
const LINES: [(&str, usize); 3] = [("b64", 14), ("scan", 2), ("carry12", 4)];
const FILL: u8 = 0xa5;

/// The lines of a kind: what is given and what is expected.
fn lines(kind: &str) -> Vec<(&'static str, &'static str)> {
    let lines = PAGE.lines().filter_map(|line| line.strip_prefix(kind)?.strip_prefix(' '));
    lines.map(|line| line.split_once(" => ").unwrap()).collect()
}

#[test]
fn all_lines_are_there() {
    let counted: Vec<usize> = LINES.iter().map(|(kind, _)| lines(kind).len()).collect();
    assert_eq!(counted, LINES.map(|(_, count)| count));
    assert_eq!(PAGE.lines().count(), 1 + counted.iter().sum::<usize>());
}

/// The page writes a byte by its two digits, several of them one behind another.
#[test]
fn the_lines_of_base64() {
    for (text, expected) in lines("b64") {
        let shown = match base64::decode_optional(text.as_bytes()) {
            Ok(bytes) => {
                let digits: String = bytes.iter().map(|byte| format!("{byte:02x}")).collect();
                format!("<{digits}>")
            }
            Err(refusal) => (refusal as u8).to_string(),
        };
        assert_eq!(shown, expected, "{text}");
    }
}

/// What is reported, fed in pieces of this size: texts, and refusals 1 and 2.
fn scan(given: &[u8], step: usize) -> Vec<Vec<u8>> {
    let mut console = Console::default();
    let mut found = Vec::new();
    for piece in given.chunks(step) {
        let mut at = 0;
        while at < piece.len() {
            let answer = console.apply(&Op::Feed(piece[at..].to_vec())).unwrap();
            at += answer.consumed;
            match answer.refusal {
                Some(refusal @ (Refusal::TooLong | Refusal::Abandoned)) => {
                    found.push(format!("refused {}", refusal as u8).into_bytes());
                }
                _ if answer.text != Place::Nowhere => found.push(console.text().to_vec()),
                _ => {}
            }
        }
    }
    found
}

/// The same of a sender.
fn heard(given: &[u8], step: usize) -> Vec<Vec<u8>> {
    let mut office = Office::default();
    let mut found = Vec::new();
    for piece in given.chunks(step) {
        let mut at = 0;
        while at < piece.len() {
            let answer = office.apply(&Call::Hear(piece[at..].to_vec()));
            let Some(Answer::Heard(heard)) = answer else {
                panic!("not heard");
            };
            at += heard.consumed;
            match heard.refusal {
                Some(refusal @ (Refusal::TooLong | Refusal::Abandoned)) => {
                    found.push(format!("refused {}", refusal as u8).into_bytes());
                }
                _ if heard.text != Place::Nowhere => found.push(office.text().to_vec()),
                _ => {}
            }
        }
    }
    found
}

/// However the bytes are cut, by the receiver and by the sender.
#[test]
fn the_lines_of_frames() {
    for (given, expected) in lines("scan") {
        let expected: Vec<Vec<u8>> = expected.split(" | ").map(bytes).collect();
        let given = bytes(given);
        for step in (1..40).chain([8191, 8192, 8195, 8196, 20_000]) {
            assert_eq!(scan(&given, step), expected, "{step}");
            assert_eq!(heard(&given, step), expected, "{step}");
        }
    }
}

#[test]
fn the_lines_of_the_carry() {
    for (pieces, expected) in lines("carry12") {
        let mut console = Console::default();
        for piece in pieces.split(" | ") {
            let piece = bytes(piece);
            let answer = console.apply(&Op::Feed(piece.clone())).unwrap();
            assert_eq!(answer.consumed, piece.len());
        }
        let (kept, rest) = console.carry().split_at(expected.len());
        assert_eq!(kept, bytes(expected), "{pieces}");
        assert!(rest.iter().all(|&byte| byte == FILL), "{pieces}");
    }
}

/// The readings' lines on the carry, with the other mark.
#[test]
fn the_readings_hold() {
    for given in ["^[]72;ac^[]5113;ac=receive;id=z^[\\", "^[]72;x^[^[]5113;ac=receive;id=z^[\\"] {
        assert_eq!(run(given), "refused 2 + status EINVAL");
    }
    assert_eq!(run("^[]72;ac^[ | ] | 5113;ac=receive;id=z^[\\"), "- | refused 2 | status EINVAL");
    assert_eq!(run("^[]72;x<07>^[\\ | <9D>72;x<9C>"), "dragdrop | -");
    assert_eq!(run("^[]72;{A*8190}^[x | ^[]72;{A*8188}<01>^[\\"), "refused 2 | dragdrop");
    let none = ["72", "7", "720;", "572;", "72:;", " 72;", "072;", "7 2;", "7113;", "52;"];
    for text in none {
        for end in ["\\", "x", "]"] {
            assert_eq!(run(&format!("^[]{text}^[{end}")), "-", "{text}");
        }
    }
}

/// Where an answer is owed, 10; then it is told. Nothing of it is written but the carry, and no reply.
#[test]
fn a_session_goes_on() {
    let begun = "^[]5113;ac=send;id=m^[\\ | [allow m] | ^[]5113;ac=file;id=m;fid=a;n=L256^[\\";
    let items = format!("{begun} | ^[]72;t=a^[\\ | [done] | ^[]72;t=a^[\\ | [done]");
    let results =
        "asked | ok OK | ask open | refused 10 | status STARTED/a | dragdrop | refused 11";
    assert_eq!(run(&items), results);
}

#[test]
fn nothing_is_written() {
    let mut console = Console::default();
    console.apply(&Op::Feed(bytes("^[]5113;ac=status;id=m;st=AQID^[\\")));
    let before = console.scratch().1;
    let answer = console.apply(&Op::Feed(bytes("^[]72;t=r:x=1;QUJD^[\\"))).unwrap();
    assert_eq!((answer.consumed, answer.reply, answer.written), (19, 0, 0));
    assert_eq!(console.text(), b"72;t=r:x=1;QUJD");
    assert_eq!(console.scratch().1, before);
    assert!(console.carry().iter().all(|&byte| byte == FILL));
    for (buffer, len) in [(Buffer::Carry, 8191), (Buffer::Scratch, 6143), (Buffer::Reply, 123)] {
        console.apply(&Op::Lend(buffer, len));
        let answer = console.apply(&Op::Feed(bytes("^[]72;t=a^[\\"))).unwrap();
        assert_eq!((answer.refusal, answer.consumed), (Some(Refusal::ShortBuffer), 0));
        console.apply(&Op::Lend(buffer, u16::MAX));
    }
}

/// A transfer, and the same with texts of drag and drop between its frames: closed, abandoned, too long.
fn transfers() -> [Vec<u8>; 2] {
    let frames = [
        "^[]5113;ac=send;id=m^[\\",
        "^[]5113;ac=file;id=m;fid=a;n=L256^[\\",
        "^[]5113;ac=end_data;id=m;fid=a;d=YWJj^[\\",
        "^[]5113;ac=finish;id=m^[\\",
    ];
    let between = ["^[]72;t=a^[\\", "^[]72;t=a^[x", "^[]72;{y*8190}^[\\", "^[]72;t=a"];
    [frames.concat(), frames.iter().zip(between).map(|(a, b)| format!("{a}{b}")).collect()]
        .map(|given| bytes(&given))
}

#[test]
fn replay_writes_nothing() {
    let [plain, mixed] = transfers();
    let replies = |recording: &[u8], step| {
        let (mut replay, mut out) = (Replay::default(), Vec::new());
        recording.chunks(step).for_each(|piece| replay.take(piece, &mut out));
        out
    };
    let expected = replies(&plain, plain.len());
    assert!(!expected.is_empty());
    for step in [1, 2, 7, 100, mixed.len()] {
        assert_eq!(replies(&mixed, step), expected);
    }
}

/// Outside, closed, abandoned, too long or unfinished, and one stretch with its neighbours.
#[test]
fn a_mender_drops_it_as_outside() {
    let [plain, mixed] = transfers();
    let mended_mixed = mended(&mixed).unwrap();
    assert_eq!(mended_mixed.kept, plain);
    assert_eq!(mended_mixed.rows.len(), 4);
    assert!(mended_mixed.rows.iter().all(|row| row.why == 0));
    let alone = bytes("a^[]72;t=a^[\\b^[]72;{y*8190}^[\\^[]72;c^[xd^[]0;t^[\\^[]72;e");
    let mended_alone = mended(&alone).unwrap();
    let rows: Vec<_> = mended_alone.rows.iter().map(|row| (row.start, row.len, row.why)).collect();
    assert_eq!((mended_alone.kept.len(), rows), (0, vec![(0, alone.len(), 0)]));
}

#[test]
fn a_comparer_does_not_see_it() {
    let [plain, mixed] = transfers();
    let verdicts = |first: &[u8], second: &[u8]| -> Vec<_> {
        rows(first, second).unwrap().into_iter().map(|row| row.verdict).collect()
    };
    assert_eq!(verdicts(&plain, &mixed), verdicts(&plain, &plain));
    assert_eq!(verdicts(&mixed, &plain), verdicts(&plain, &plain));
    assert_eq!(verdicts(&mixed, &plain).len(), 1);
}

/// Ignored, and the session and its files are as before.
#[test]
fn a_sender_passes_it_over() {
    let mut office = Office::default();
    office.apply(&Call::Send(b"m".to_vec()));
    office.apply(&Call::Hear(bytes("^[]5113;ac=status;id=m;st=T0s=^[\\")));
    office.apply(&Call::File { fid: b"a".to_vec(), name: b"/nz".to_vec(), size: 0 });
    office.apply(&Call::Piece(b"abc".to_vec()));
    let state = office.state();
    assert_eq!(state, "o,s3");
    let told = office.apply(&Call::Hear(bytes("^[]72;ac=status;id=m;st=RUlP^[\\"))).unwrap();
    assert!(format!("{told:?}").contains("Ignored"), "{told:?}");
    assert_eq!(office.text(), b"72;ac=status;id=m;st=RUlP");
    assert_eq!(office.state(), state);
}
