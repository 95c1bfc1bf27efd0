//! The scripted office: a list of calls on one sender, every answer printed.

use super::script::{self, Op};
use super::{FileStage, Heard, News, Sender, Stage, Written};
use crate::console::{hex, Buffer, BAD, LONGEST_SCRIPT};
use crate::receiver;
use crate::script::Ops;
use std::io::Write;
use std::ops::Range;

/// What a call gave.
#[derive(Clone, Debug)]
pub enum Answer {
    Written(Written),
    Heard(Heard),
}

/// A sender with its buffers, and the latest hear.
pub struct Console {
    sender: Sender,
    out: Buffer<8260>,
    carry: Buffer<8256>,
    scratch: Buffer<6208>,
    piece: Vec<u8>,
    report: Heard,
}

/// Runs a script and adds its output to `out`.
pub fn run(script: &[u8], out: &mut Vec<u8>) {
    if script.len() > LONGEST_SCRIPT {
        out.extend_from_slice(BAD);
        return;
    }
    let mut console = Console::default();
    for op in Ops::new(script) {
        match op {
            Ok(op) => console.print(&op, out),
            Err(()) => out.extend_from_slice(BAD),
        }
    }
}

impl Default for Console {
    fn default() -> Self {
        Console {
            sender: Sender::default(),
            out: Buffer::new(),
            carry: Buffer::new(),
            scratch: Buffer::new(),
            piece: Vec::new(),
            report: Heard::default(),
        }
    }
}

impl Console {
    /// Does one operation; gives the answer of those that call the sender.
    pub fn apply(&mut self, op: &Op) -> Option<Answer> {
        let out = self.out.lend();
        Some(Answer::Written(match op {
            Op::Send(id) => self.sender.send(id, out),
            Op::File { fid, name, size } => self.sender.file(fid, name, *size, out),
            Op::Piece(bytes) => self.sender.piece(bytes, false, out),
            Op::Last(bytes) => self.sender.piece(bytes, true, out),
            Op::Finish => self.sender.finish(out),
            Op::Hear(piece) => {
                self.piece.clone_from(piece);
                self.report = self.sender.hear(piece, self.carry.lend(), self.scratch.lend());
                return Some(Answer::Heard(self.report.clone()));
            }
            Op::Text | Op::Anew | Op::Lend(..) => {
                self.set(op);
                return None;
            }
        }))
    }

    fn set(&mut self, op: &Op) {
        match *op {
            Op::Anew => *self = Console::default(),
            Op::Lend(script::Buffer::Out, len) => self.out.limit(len),
            Op::Lend(script::Buffer::Carry, len) => self.carry.limit(len),
            Op::Lend(script::Buffer::Scratch, len) => self.scratch.limit(len),
            _ => {}
        }
    }

    pub fn sender(&self) -> &Sender {
        &self.sender
    }

    /// The text of the latest hear's report.
    pub fn text(&mut self) -> &[u8] {
        receiver::text(&self.piece, self.carry.lend(), self.report.text)
    }

    /// The frame that a call wrote, empty if it wrote none.
    pub fn frame(&self, written: &Written) -> &[u8] {
        &self.out.bytes[..written.unwrap_or(0)]
    }

    /// The session's letter, then each file's with the bytes sent.
    pub fn state(&self) -> String {
        let mut state = session_letter(self.sender.stage()).to_string();
        for file in self.sender.files() {
            state += &format!(",{}{}", file_letter(file.stage), file.sent);
        }
        state
    }

    /// Does one operation and adds its line to `out`.
    fn print(&mut self, op: &Op, out: &mut Vec<u8>) {
        if let Some(answer) = self.apply(op) {
            return self.print_answer(op.letter(), &answer, out);
        }
        if *op == Op::Text {
            out.extend_from_slice(b"t ");
            hex(self.text(), out);
            out.push(b'\n');
        }
    }

    fn print_answer(&self, letter: u8, answer: &Answer, out: &mut Vec<u8>) {
        let (refusal, consumed, told, frame) = match answer {
            Answer::Written(written) => (written.err(), 0, "none".into(), self.frame(written)),
            Answer::Heard(heard) => (heard.refusal, heard.consumed, told(&heard.news), &[][..]),
        };
        let refusal = refusal.map_or(0, |refusal| refusal as u8);
        // Writing to a vector does not fail.
        let _ = write!(out, "{} {refusal} {consumed} {told} ", letter as char);
        hex(frame, out);
        let (written, carry, scratch) = (self.out.sum(), self.carry.sum(), self.scratch.sum());
        let _ = writeln!(out, " {written} {carry} {scratch} {}", self.state());
    }
}

fn session_letter(stage: Stage) -> char {
    match stage {
        Stage::Fresh => 'f',
        Stage::Waiting => 'w',
        Stage::Open => 'o',
        Stage::Finished => 'e',
        Stage::Stopped => 'x',
    }
}

fn file_letter(stage: FileStage) -> char {
    match stage {
        FileStage::Sending => 's',
        FileStage::Sent => 'e',
        FileStage::Closed => 'c',
        FileStage::Stopped => 'x',
    }
}

fn told(news: &News) -> String {
    match news {
        News::Nothing => "none".into(),
        News::Ignored => "ignored".into(),
        News::Noted => "noted".into(),
        News::Allowed => "allowed".into(),
        News::Differs { file, size } => format!("differs:{file}:{size}"),
        News::FileStopped { file, status } => format!("stopped:{file}:{}", place(status)),
        News::SessionStopped { status } => format!("stopped:{}", place(status)),
    }
}

fn place(status: &Range<usize>) -> String {
    let start = if status.is_empty() { 0 } else { status.start };
    format!("{start}:{}", status.len())
}
