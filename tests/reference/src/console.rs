//! The scripted console: a list of calls on one receiver, every answer printed.

use crate::receiver::{self, Answer, Failure, Numbers, Receiver, Told};
use crate::script::{self, Op, Ops};
use std::io::Write;

pub const LONGEST_SCRIPT: usize = 65_536;
pub(crate) const BAD: &[u8] = b"bad script\n";
pub(crate) const FILL: u8 = 0xa5;

/// A buffer of which the first bytes are lent.
#[derive(Clone)]
pub(crate) struct Buffer<const N: usize> {
    pub bytes: [u8; N],
    lent: usize,
}

impl<const N: usize> Buffer<N> {
    pub fn new() -> Self {
        Buffer { bytes: [FILL; N], lent: N }
    }

    pub fn lend(&mut self) -> &mut [u8] {
        &mut self.bytes[..self.lent]
    }

    pub fn limit(&mut self, len: u16) {
        self.lent = N.min(len as usize);
    }

    /// The sum of (i + 1) times byte i, modulo 65521.
    pub fn sum(&self) -> u64 {
        const BLOCK: usize = 256;
        let weigh = |sum: (u32, u32), (i, &b): (usize, &u8)| {
            (sum.0 + b as u32, sum.1 + (i as u32 + 1) * b as u32)
        };
        let blocks = self.bytes.chunks(BLOCK).enumerate();
        let total = blocks.fold(0, |total, (n, block)| {
            let (plain, weighed) = block.iter().enumerate().fold((0, 0), weigh);
            total + (n * BLOCK) as u64 * plain as u64 + weighed as u64
        });
        total % 65_521
    }
}

/// A receiver with its buffers, and the latest feed.
#[derive(Clone)]
pub struct Console {
    receiver: Receiver,
    carry: Buffer<8256>,
    scratch: Buffer<6208>,
    reply: Buffer<192>,
    out: Buffer<8256>,
    piece: Vec<u8>,
    report: Answer,
}

/// Runs a script and adds its output to `out`.
pub fn run(script: &[u8], out: &mut Vec<u8>) {
    if script.len() > LONGEST_SCRIPT {
        out.extend_from_slice(BAD);
        return;
    }
    let mut console = Console::default();
    for op in Ops::new(script) {
        match op {
            Ok(op) => console.print(&op, out),
            Err(()) => out.extend_from_slice(BAD),
        }
    }
}

fn failure(code: u8) -> Failure {
    match code {
        1 => Failure::Permission,
        2 => Failure::Io,
        3 => Failure::NoEntry,
        _ => Failure::NoSpace,
    }
}

impl Default for Console {
    fn default() -> Self {
        Console {
            receiver: Receiver::default(),
            carry: Buffer::new(),
            scratch: Buffer::new(),
            reply: Buffer::new(),
            out: Buffer::new(),
            piece: Vec::new(),
            report: Answer::default(),
        }
    }
}

impl Console {
    /// Does one operation; gives the answer of those that call the receiver.
    pub fn apply(&mut self, op: &Op) -> Option<Answer> {
        let (reply, out) = (self.reply.lend(), self.out.lend());
        Some(match op {
            Op::Feed(piece) => {
                self.piece.clone_from(piece);
                let (carry, scratch) = (self.carry.lend(), self.scratch.lend());
                self.report = self.receiver.feed(piece, carry, scratch, reply);
                self.report
            }
            Op::Allow(id) => self.receiver.allow(id, reply),
            Op::Deny(id) => self.receiver.deny(id, reply),
            Op::Drop(id) => self.receiver.drop(id),
            Op::Done => self.receiver.done(reply),
            Op::Failed(code) => self.receiver.failed(failure(*code), reply),
            Op::List(entry) => self.receiver.list(entry, out),
            Op::ListFailed { id, fid, code } => {
                self.receiver.list_failed(id, fid, failure(*code), out)
            }
            Op::Home { id, path } => self.receiver.home(id, path, out),
            Op::Part(bytes) => self.receiver.supply(bytes, false, out),
            Op::LastPart(bytes) => self.receiver.supply(bytes, true, out),
            Op::Unlisted => self.receiver.unlisted(reply),
            Op::Text | Op::Numbers(_) | Op::Anew | Op::Lend(..) => {
                self.set(op);
                return None;
            }
        })
    }

    fn set(&mut self, op: &Op) {
        match *op {
            Op::Anew => *self = Console::default(),
            Op::Lend(script::Buffer::Carry, len) => self.carry.limit(len),
            Op::Lend(script::Buffer::Scratch, len) => self.scratch.limit(len),
            Op::Lend(script::Buffer::Reply, len) => self.reply.limit(len),
            Op::Lend(script::Buffer::Out, len) => self.out.limit(len),
            _ => {}
        }
    }

    /// The text of the latest feed's report.
    pub fn text(&mut self) -> &[u8] {
        receiver::text(&self.piece, self.carry.lend(), self.report.text)
    }

    /// The numbers of a session that is present.
    pub fn numbers(&self, id: &[u8]) -> Option<Numbers> {
        self.receiver.numbers(id)
    }

    /// The receiver, for a look.
    pub fn receiver(&self) -> &Receiver {
        &self.receiver
    }

    /// The scratch, whole, and its sum.
    pub fn scratch(&self) -> (&[u8], u64) {
        (&self.scratch.bytes, self.scratch.sum())
    }

    /// The carry, whole.
    pub fn carry(&self) -> &[u8] {
        &self.carry.bytes
    }

    /// What a call wrote: its reply or, in the buffer out, a frame. No call writes both.
    pub fn written(&self, answer: &Answer) -> &[u8] {
        match answer.written {
            0 => &self.reply.bytes[..answer.reply],
            len => &self.out.bytes[..len],
        }
    }

    /// Does one operation and adds its line to `out`.
    fn print(&mut self, op: &Op, out: &mut Vec<u8>) {
        if let Some(answer) = self.apply(op) {
            return self.print_answer(op, &answer, out);
        }
        match op {
            Op::Text => {
                out.extend_from_slice(b"t ");
                hex(self.text(), out);
                out.push(b'\n');
            }
            Op::Numbers(id) => print_numbers(self.numbers(id), out),
            _ => {}
        }
    }

    fn print_answer(&self, op: &Op, answer: &Answer, out: &mut Vec<u8>) {
        let refusal = answer.refusal.map_or(0, |refusal| refusal as u8);
        // Writing to a vector does not fail.
        let _ = write!(out, "{} {} {} ", op.letter() as char, refusal, answer.consumed);
        told(&answer.told, out);
        out.push(b' ');
        hex(self.written(answer), out);
        let (carry, scratch, reply) = (self.carry.sum(), self.scratch.sum(), self.reply.sum());
        let _ = write!(out, " {carry} {scratch} {reply}");
        if op.writes_out() {
            let _ = write!(out, " {}", self.out.sum());
        }
        out.push(b'\n');
    }
}

fn print_numbers(numbers: Option<Numbers>, out: &mut Vec<u8>) {
    // Writing to a vector does not fail.
    let _ = match numbers {
        Some(Numbers { started, done_bytes }) => writeln!(out, "y {started} {done_bytes}"),
        None => writeln!(out, "y none"),
    };
}

fn told(told: &Told, out: &mut Vec<u8>) {
    let word = match *told {
        Told::Nothing => "none",
        Told::Ignored => "ignored",
        Told::Asked(_) => "asked",
        Told::Open => "open",
        Told::Commit => "commit",
        Told::Naming => "naming",
        Told::Withdrawn => "withdrawn",
        Told::Discarded => "discarded",
        Told::Committed => "committed",
        Told::DragDrop => "dragdrop",
        Told::Status(status) => {
            out.extend_from_slice(b"status:");
            status.word()
        }
        Told::Write { start, len, last } => {
            return place(if last { "last" } else { "write" }, start, len, out)
        }
        Told::Path { start, len } => return place("path", start, len, out),
        Told::LastPath { start, len, .. } => return place("lastpath", start, len, out),
        Told::Request { start, len } => return place("request", start, len, out),
    };
    out.extend_from_slice(word.as_bytes());
}

/// What is told with a place in the scratch. Where it is empty its start is open, so it is shown as 0.
fn place(word: &str, start: usize, len: usize, out: &mut Vec<u8>) {
    let start = if len == 0 { 0 } else { start };
    // Writing to a vector does not fail.
    let _ = write!(out, "{word}:{start}:{len}");
}

pub(crate) fn hex(bytes: &[u8], out: &mut Vec<u8>) {
    const DIGITS: &[u8; 16] = b"0123456789abcdef";
    if bytes.is_empty() {
        out.push(b'-');
    }
    for &b in bytes {
        out.push(DIGITS[b as usize >> 4]);
        out.push(DIGITS[b as usize & 15]);
    }
}
