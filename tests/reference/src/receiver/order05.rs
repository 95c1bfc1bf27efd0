//! The worked lines of order 5's page. Some set a record's count, which no recording of sensible length reaches.

use super::session::FileState;
use super::{base64, Receiver, Told, CARRY, REPLY, SCRATCH};

const LINES: usize = 23;

struct Console {
    receiver: Receiver,
    reply: [u8; REPLY],
}

impl Console {
    /// A console with the session m open.
    fn new() -> Self {
        let mut console = Console { receiver: Receiver::default(), reply: [0; REPLY] };
        console.command("ac=send;id=m");
        console
    }

    /// Feeds a command, allows or answers done what it asks for, and gives the reply.
    fn command(&mut self, text: &str) -> String {
        let piece = format!("\x1b]5113;{text}\x1b\\");
        let (mut carry, mut scratch) = ([0; CARRY], [0; SCRATCH]);
        let fed = self.receiver.feed(piece.as_bytes(), &mut carry, &mut scratch, &mut self.reply);
        assert_eq!((fed.refusal, fed.consumed), (None, piece.len()));
        let answer = match fed.told {
            Told::Asked(id) => self.receiver.allow(id.bytes(), &mut self.reply),
            Told::Open | Told::Write { .. } | Told::Commit => self.receiver.done(&mut self.reply),
            _ => fed,
        };
        shown(&self.reply[..answer.reply])
    }

    fn part(&mut self, action: &str, len: &str) -> String {
        let content = vec![b'x'; len.parse().unwrap()];
        let mut data = vec![0; content.len().div_ceil(3) * 4];
        base64::encode(&content, &mut data);
        let data = String::from_utf8(data).unwrap();
        self.command(&format!("ac={action};id=m;fid=a;d={data}"))
    }

    /// Does an item of a line and gives its result, if it has one.
    fn item(&mut self, item: &str) -> Option<String> {
        match item.split_once(' ').unwrap_or((item, "")) {
            ("file", "") => Some(self.command("ac=file;id=m;fid=a;n=L256")),
            ("file", fields) => Some(self.command(&format!("ac=file;id=m;fid=a;n=L256;{fields}"))),
            ("data", len) => Some(self.part("data", len)),
            ("end", len) => Some(self.part("end_data", len)),
            ("count", count) => {
                self.receiver.sessions.at(0).file(0).count = count.parse().unwrap();
                None
            }
            ("fill", count) => {
                for i in 0..count.parse().unwrap() {
                    self.command(&format!("ac=file;id=m;fid=f{i};n=L256;ft=directory"));
                }
                None
            }
            ("again", "") => {
                self.command("ac=cancel;id=m");
                self.command("ac=send;id=m");
                None
            }
            _ => panic!("no such item: {item}"),
        }
    }
}

/// The word, `=sz` if it has one, `-` for no reply.
fn shown(reply: &[u8]) -> String {
    if reply.is_empty() {
        return "-".into();
    }
    let text = std::str::from_utf8(reply).unwrap().strip_suffix("\x1b\\").unwrap();
    let value = |key| text.split(';').find_map(|field| field.strip_prefix(key));
    let status = value("st=").unwrap().as_bytes();
    let mut word = vec![0; base64::check(status).unwrap()];
    base64::decode(status, &mut word);
    let size = value("sz=").map_or(String::new(), |size| format!("={size}"));
    String::from_utf8(word).unwrap() + &size
}

#[test]
fn the_lines_of_the_page() {
    let lines = include_str!("../../tests/order05.txt").lines();
    let mut count = 0;
    for line in lines.filter(|line| !line.starts_with('#')) {
        let (items, expected) = line.split_once(" => ").unwrap();
        let mut console = Console::new();
        let results: Vec<String> =
            items.split(" | ").filter_map(|item| console.item(item)).collect();
        assert_eq!(results.join(" | "), expected, "{line}");
        count += 1;
    }
    assert_eq!(count, LINES);
}

/// A part that is refused leaves the count, nothing is owed, and the file has failed for good.
#[test]
fn a_refused_part_is_not_counted() {
    for refused in ["data 2", "end 2", "end 0"] {
        let mut console = Console::new();
        console.item("file sz=4");
        console.item("data 3");
        console.item(refused);
        let record = *console.receiver.sessions.at(0).file(0);
        assert_eq!((record.state, record.count), (FileState::Failed, 3), "{refused}");
        assert!(console.receiver.owed.is_none());
        assert_eq!(console.item("end 1").unwrap(), "-");
    }
}

/// No sentence refuses a length beyond 2^40; sizes that declare nothing leave the count free.
#[test]
fn what_a_size_declares() {
    for (size, declared) in [
        ("0", None),
        ("-0", None),
        ("000", None),
        ("1", Some(1)),
        ("1099511627777", Some((1 << 40) + 1)),
        ("9223372036854775807", Some(u64::MAX / 2)),
    ] {
        let mut console = Console::new();
        assert_eq!(console.item(&format!("file sz={size}")).unwrap(), "STARTED");
        assert_eq!(console.receiver.sessions.at(0).file(0).declared, declared, "{size}");
    }
}
