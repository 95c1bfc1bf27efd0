//! The examples of order 6's page, run through the reference, and cases that its sentences settle.

mod running;

use reference::console::{self, Console};
use reference::notation::bytes;
use reference::receiver::command::{self, Action, FileType};
use reference::receiver::Entry;
use reference::replay::Replay;
use reference::script::Op;
use running::{run, run_on};

const PAGE: &str = include_str!("order06.txt");
/// The number of worked lines, so that none is lost unseen.
const LINES: usize = 10;

#[test]
fn the_lines_of_the_page() {
    let lines = PAGE.lines().filter_map(|line| line.strip_prefix("run6 "));
    let mut count = 0;
    for line in lines {
        let (items, expected) = line.split_once(" => ").unwrap();
        assert_eq!(run(items), expected, "{line}");
        count += 1;
    }
    assert_eq!(count, LINES);
}

/// A token of two hexadecimal digits is a byte, any other stands for itself.
fn script(notation: &str) -> Vec<u8> {
    let token = |token: &str| match u8::from_str_radix(token, 16) {
        Ok(byte) if token.len() == 2 => vec![byte],
        _ => bytes(token),
    };
    notation.split(' ').flat_map(token).collect()
}

#[test]
fn the_script_of_the_page() {
    let (_, example) = PAGE.split_once("\nscript ").unwrap();
    let (notation, expected) = example.split_once('\n').unwrap();
    let mut out = Vec::new();
    console::run(&script(notation), &mut out);
    assert_eq!(String::from_utf8(out).unwrap(), expected);
}

/// The state that each prefix brings the session m to, with quiet 0.
const NAMING: &str = "^[]5113;ac=receive;id=m;sz=1^[\\";
const PATH: &str = "^[]5113;ac=file;id=m;fid=a;n=L256^[\\";

fn last_of(items: &[&str]) -> String {
    run(&items.join(" | ")).rsplit(" | ").next().unwrap().into()
}

const ACTIONS: [&str; 8] =
    ["send", "receive", "file", "data", "end_data", "status", "finish", "cancel"];

/// The page's table: what comes of each action in each state.
#[test]
fn the_rows_of_the_table() {
    let dropped = ["withdrawn"; 5].join(", ");
    let waiting = format!("withdrawn, withdrawn, {dropped}, withdrawn CANCELED");
    let naming =
        waiting.replacen("withdrawn, withdrawn, withdrawn", "withdrawn, withdrawn, lastpath", 1);
    let listing = "status EINVAL, status EINVAL, ignored, ignored, ignored, ignored, discarded, discarded CANCELED";
    let serving = listing.replacen("ignored", "ask request", 1);
    let rows: [(&[&str], &str); 4] = [
        (&[NAMING], &naming),
        (&[NAMING, PATH], &waiting),
        (&[NAMING, PATH, "[allow m]"], listing),
        (&[NAMING, PATH, "[allow m]", "[home m /h]"], &serving),
    ];
    for (prefix, results) in rows {
        let result = |action: &&str| {
            let command = format!("^[]5113;ac={action};id=m;fid=b;n=L256;sz=1^[\\");
            last_of(&[prefix, &[command.as_str()]].concat())
        };
        assert_eq!(
            ACTIONS.iter().map(result).collect::<Vec<_>>().join(", "),
            results,
            "{prefix:?}"
        );
    }
}

/// A refused call changes nothing: the next one is answered as if it had not been made.
#[test]
fn refused_calls_change_nothing() {
    let request = "^[]5113;ac=file;id=m;fid=1^[\\";
    let serving = [NAMING, PATH, "[allow m]", "[home m /h]", request];
    for refused in [
        "[done]",
        "[short part x]",
        "[short last x]",
        "[part {x*4097}]",
        "[last {x*4097}]",
        "[short unlisted]",
        "[short failed EIO]",
        "[short done]",
        "[list m a 7 /x]",
        "[home m /h]",
        "[nolist m a EIO]",
    ] {
        let items = [&serving[..], &[refused, "[last z]"]].concat();
        assert_eq!(last_of(&items), "ok end_data/1:z", "{refused}");
    }
}

/// A request is owed by its own session alone.
#[test]
fn another_session_lists_while_a_request_is_owed() {
    let other = "^[]5113;ac=receive;id=k;sz=1^[\\ | ^[]5113;ac=file;id=k;fid=b;n=L256^[\\";
    let request = "^[]5113;ac=file;id=m;fid=1^[\\";
    let items = [NAMING, PATH, "[allow m]", "[home m /h]", other, request];
    let calls =
        "[allow k] | [list k b 1 /x] | [home k /] | [drop k] | [part x] | [drop m] | [part x]";
    let results = run(&format!("{} | {calls}", items.join(" | ")));
    let expected = "ok OK | ok file/b:/x | ok OK n=/ | ok | ok data/1:x | ok | refused 18";
    assert!(results.ends_with(expected), "{results}");
}

/// The replay allows a receive session after its last path and supplies nothing, so no file is asked for.
#[test]
fn a_replay_supplies_nothing() {
    let recording = "^[]5113;ac=receive;id=m;sz=2^[\\^[]5113;ac=file;id=m;fid=a;n=L256^[\\\
        ^[]5113;ac=file;id=m;fid=a;n=L256^[\\^[]5113;ac=file;id=m;fid=b;n=L256^[\\\
        ^[]5113;ac=file;id=m;fid=c;n=L256^[\\^[]5113;ac=send;id=m^[\\^[]5113;ac=finish;id=m^[\\\
        ^[]5113;ac=cancel;id=m^[\\";
    let mut out = Vec::new();
    Replay::default().take(&bytes(recording), &mut out);
    let replies = "^[]5113;ac=status;id=m;fid=a;st=RUVYSVNU^[\\^[]5113;ac=status;id=m;st=T0s=^[\\\
        ^[]5113;ac=status;id=m;st=RUlOVkFM^[\\";
    assert_eq!(out, bytes(replies));
}

/// What is listed reads back as it was given, each field at its limits.
#[test]
fn an_entry_reads_back() {
    let mut console = Console::default();
    run_on(&mut console, &format!("{NAMING} | {PATH} | [allow m]"));
    let entry = Entry {
        file_type: FileType::Link,
        modified: i64::MIN,
        permissions: -1,
        size: i64::MAX,
        id: b"m".to_vec(),
        path_id: vec![b'f'; 32],
        parent: vec![b'p'; 32],
        name: b"/\xff\x00".to_vec(),
        own_id: b"7".to_vec(),
        target: b"fid:6".to_vec(),
    };
    let answer = console.apply(&Op::List(entry.clone())).unwrap();
    let frame = console.written(&answer);
    let (text, mut scratch) = (&frame[2..frame.len() - 2], [0; 6144]);
    let read = command::read(text, &mut scratch).unwrap();
    assert_eq!((read.action, read.file_type), (Some(Action::File), entry.file_type));
    assert_eq!((read.modified, read.permissions, read.size), (i64::MIN, -1, i64::MAX));
    assert_eq!(
        (read.id, read.fid, read.parent),
        (&entry.id[..], &entry.path_id[..], &entry.parent[..])
    );
    let decoded = [read.name, read.status, read.data].map(|place| scratch[place].to_vec());
    assert_eq!(decoded, [entry.name, entry.own_id, entry.target]);
}
