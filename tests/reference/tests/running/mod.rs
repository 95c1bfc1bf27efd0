//! Runs the items of `run` lines on a console, and shows what they give in the readings' notation.

use reference::console::Console;
use reference::notation::{bytes, receiver_call};
use reference::receiver::{base64, Answer, Refusal, Told};
use reference::script::Op;

fn effect(answer: &Answer, quiet_word: &str) -> String {
    if let Some(refusal) = answer.refusal {
        return format!("refused {}", refusal as u8);
    }
    let word = match answer.told {
        Told::Nothing => quiet_word,
        Told::Ignored => "ignored",
        Told::Asked(_) => "asked",
        Told::Open => "ask open",
        Told::Write { last: false, .. } => "ask write",
        Told::Write { last: true, .. } => "ask write_last",
        Told::Commit => "ask commit",
        Told::Naming => "naming",
        Told::Path { .. } => "path",
        Told::LastPath { .. } => "lastpath",
        Told::Request { .. } => "ask request",
        Told::Withdrawn => "withdrawn",
        Told::Discarded => "discarded",
        Told::Committed => "committed",
        Told::Status(_) => "status",
        Told::DragDrop => "dragdrop",
    };
    word.to_string()
}

fn decoded(value: &str) -> String {
    let mut out = vec![0; base64::check(value.as_bytes()).unwrap()];
    base64::decode(value.as_bytes(), &mut out);
    String::from_utf8(out).unwrap()
}

/// Of a status: WORD, `/fid`, `=sz` and ` n=NAME` if it has them. Of another command: `AC/FID:` and its d, of `file` its n.
fn frame(bytes: &[u8]) -> String {
    let text = std::str::from_utf8(bytes).unwrap();
    let text = text.strip_prefix("\x1b]5113;").unwrap().strip_suffix("\x1b\\").unwrap();
    let value =
        |key: &str| text.split(';').find_map(|field| field.strip_prefix(key)?.strip_prefix('='));
    let action = value("ac").unwrap();
    if action != "status" {
        let content = value(if action == "file" { "n" } else { "d" }).unwrap_or_default();
        return format!("{action}/{}:{}", value("fid").unwrap_or_default(), decoded(content));
    }
    let mut shown = decoded(value("st").unwrap());
    shown += &value("fid").map_or(String::new(), |fid| format!("/{fid}"));
    shown += &value("sz").map_or(String::new(), |size| format!("={size}"));
    shown + &value("n").map_or(String::new(), |name| format!(" n={}", decoded(name)))
}

fn shown(console: &Console, answer: &Answer, quiet_word: &str) -> String {
    let effect = effect(answer, quiet_word);
    match console.written(answer) {
        [] => effect,
        bytes => format!("{effect} {}", frame(bytes)),
    }
}

/// Makes a call, with the loans before and behind it.
fn make(console: &mut Console, text: &str) -> String {
    let answers: Vec<Option<Answer>> =
        receiver_call(text).iter().map(|op| console.apply(op)).collect();
    let answer = answers.into_iter().flatten().next().unwrap();
    shown(console, &answer, "ok")
}

/// Feeds a piece until it is consumed.
fn feed(console: &mut Console, mut piece: Vec<u8>) -> String {
    let mut reports = Vec::new();
    loop {
        let answer = console.apply(&Op::Feed(piece.clone())).unwrap();
        if answer.refusal.is_some() || answer.told != Told::Nothing {
            reports.push(shown(console, &answer, "-"));
        }
        piece.drain(..answer.consumed);
        let stuck = matches!(answer.refusal, Some(Refusal::ShortBuffer | Refusal::AnswerOwed));
        if piece.is_empty() || stuck {
            break;
        }
    }
    if reports.is_empty() {
        reports.push("-".into());
    }
    reports.join(" + ")
}

pub fn run(items: &str) -> String {
    run_on(&mut Console::default(), items)
}

pub fn run_on(console: &mut Console, items: &str) -> String {
    let results = items.split(" | ").map(|item| {
        match item.strip_prefix('[').and_then(|item| item.strip_suffix(']')) {
            Some(text) => make(console, text),
            None => feed(console, bytes(item)),
        }
    });
    results.collect::<Vec<String>>().join(" | ")
}
