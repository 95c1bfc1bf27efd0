//! `delta_script`: signatures, old files and deltas put together and tried, every answer printed.

use super::layout::{entry, operations, signature, Operation};
use super::{apply, measure, weak, Measured, Refusal};
use crate::console::{hex, BAD, FILL, LONGEST_SCRIPT};
use crate::script::{long, Operands, Operation as Scripted, Ops};
use std::io::Write;
use std::ops::Range;

/// The size of each buffer.
pub const BUFFER: usize = 65_600;

#[derive(Clone, Copy, Debug, PartialEq)]
pub enum Buffer {
    Signature,
    Old,
    Delta,
}

#[derive(Clone, Debug, PartialEq)]
pub enum Op {
    Append(Buffer, Vec<u8>),
    /// A byte so often.
    Fill(Buffer, u32, u8),
    Anew,
    Lend(u32),
    Signature,
    Entry(u16),
    Operations,
    Measure,
    Apply,
    Result,
    Sum {
        start: u32,
        len: u32,
    },
    Roll {
        start: u32,
        len: u32,
        times: u32,
    },
}

impl Op {
    fn letter(&self) -> u8 {
        let of = |buffer: &Buffer| match buffer {
            Buffer::Signature => b's',
            Buffer::Old => b'o',
            Buffer::Delta => b'd',
        };
        match self {
            Op::Append(buffer, _) => of(buffer),
            Op::Fill(buffer, _, _) => of(buffer).to_ascii_uppercase(),
            Op::Anew => b'n',
            Op::Lend(_) => b'r',
            Op::Signature => b'h',
            Op::Entry(_) => b'b',
            Op::Operations => b'i',
            Op::Measure => b'm',
            Op::Apply => b'a',
            Op::Result => b'x',
            Op::Sum { .. } => b'w',
            Op::Roll { .. } => b'l',
        }
    }

    fn encode(&self, out: &mut Vec<u8>) {
        out.push(self.letter());
        let mut numbers = |list: &[u32]| list.iter().for_each(|n| out.extend(n.to_le_bytes()));
        match self {
            Op::Append(_, bytes) => long(bytes, out),
            Op::Fill(_, count, byte) => {
                numbers(&[*count]);
                out.push(*byte);
            }
            Op::Lend(len) => numbers(&[*len]),
            Op::Entry(place) => out.extend(place.to_le_bytes()),
            Op::Sum { start, len } => numbers(&[*start, *len]),
            Op::Roll { start, len, times } => numbers(&[*start, *len, *times]),
            _ => {}
        }
    }
}

impl Scripted for Op {
    fn read(letter: u8, from: &mut Operands) -> Option<Self> {
        let of = |letter| match letter {
            b's' => Buffer::Signature,
            b'o' => Buffer::Old,
            _ => Buffer::Delta,
        };
        Some(match letter {
            b's' | b'o' | b'd' => Op::Append(of(letter), from.piece()?),
            b'S' | b'O' | b'D' => {
                Op::Fill(of(letter.to_ascii_lowercase()), from.wide()?, from.byte()?)
            }
            b'n' => Op::Anew,
            b'r' => Op::Lend(from.wide()?),
            b'h' => Op::Signature,
            b'b' => Op::Entry(from.number()?),
            b'i' => Op::Operations,
            b'm' => Op::Measure,
            b'a' => Op::Apply,
            b'x' => Op::Result,
            b'w' => Op::Sum { start: from.wide()?, len: from.wide()? },
            b'l' => Op::Roll { start: from.wide()?, len: from.wide()?, times: from.wide()? },
            _ => return None,
        })
    }
}

/// The bytes of a list of operations.
pub fn encode(ops: &[Op]) -> Vec<u8> {
    let mut out = Vec::new();
    ops.iter().for_each(|op| op.encode(&mut out));
    out
}

/// Runs a script and adds its output to `out`.
pub fn run(script: &[u8], out: &mut Vec<u8>) {
    if script.len() > LONGEST_SCRIPT {
        return out.extend_from_slice(BAD);
    }
    let mut bench = Bench::default();
    for op in Ops::<Op>::new(script) {
        if op.and_then(|op| bench.play(&op, out)).is_err() {
            return out.extend_from_slice(BAD);
        }
    }
}

/// The buffers, and the length of the latest result.
struct Bench {
    signature: Vec<u8>,
    old: Vec<u8>,
    delta: Vec<u8>,
    output: Vec<u8>,
    lent: usize,
    result: usize,
}

impl Default for Bench {
    fn default() -> Self {
        let (signature, old, delta) = Default::default();
        Bench { signature, old, delta, output: vec![FILL; BUFFER], lent: BUFFER, result: 0 }
    }
}

fn number<T>(answer: &Result<T, Refusal>) -> u8 {
    answer.as_ref().err().map_or(0, |refusal| *refusal as u8)
}

/// A result's length and where its hash stands; refused, as if there were neither.
fn measured(answer: &Result<Measured, Refusal>) -> String {
    let none = Measured { len: 0, hash: None };
    let Measured { len, hash } = answer.as_ref().unwrap_or(&none);
    let hash = hash.as_ref().map(|place| format!("{}:{}", place.start, place.len()));
    format!("{} {len} {}", number(answer), hash.unwrap_or_else(|| "-".into()))
}

/// The line of an operation, without its first word.
pub fn shown(operation: &Operation) -> String {
    match operation {
        Operation::Block(index) => format!("block {index}"),
        Operation::Data(place) => format!("data {} {}", place.start, place.len()),
        Operation::Hash(place) => format!("hash {} {}", place.start, place.len()),
        Operation::Blocks(first, more) => format!("blocks {first} {more}"),
    }
}

impl Bench {
    fn play(&mut self, op: &Op, out: &mut Vec<u8>) -> Result<(), ()> {
        let line = match op {
            Op::Append(buffer, bytes) => return self.append(*buffer, bytes),
            Op::Fill(buffer, count, byte) => return self.fill(*buffer, *count, *byte),
            Op::Anew => {
                *self = Bench::default();
                return Ok(());
            }
            Op::Lend(len) => {
                self.lent = BUFFER.min(*len as usize);
                return Ok(());
            }
            Op::Signature => self.header(),
            Op::Entry(place) => self.entry(*place),
            Op::Operations => self.operations(),
            Op::Measure => {
                format!("m {}", measured(&measure(&self.signature, &self.old, &self.delta)))
            }
            Op::Apply => self.apply(),
            Op::Result => {
                let mut shown = b"x ".to_vec();
                hex(&self.output[..self.result], &mut shown);
                String::from_utf8_lossy(&shown).into()
            }
            Op::Sum { start, len } => {
                let window = self.window(*start, *len, 0).unwrap_or_default();
                format!("w {}", weak::sum(&self.old[window]))
            }
            Op::Roll { start, len, times } => self.roll(*start, *len, *times),
        };
        // Writing to a vector does not fail.
        let _ = writeln!(out, "{line}");
        Ok(())
    }

    fn buffer(&mut self, which: Buffer) -> &mut Vec<u8> {
        match which {
            Buffer::Signature => &mut self.signature,
            Buffer::Old => &mut self.old,
            Buffer::Delta => &mut self.delta,
        }
    }

    fn append(&mut self, which: Buffer, bytes: &[u8]) -> Result<(), ()> {
        let buffer = self.buffer(which);
        if buffer.len() + bytes.len() > BUFFER {
            return Err(());
        }
        buffer.extend_from_slice(bytes);
        Ok(())
    }

    fn fill(&mut self, which: Buffer, count: u32, byte: u8) -> Result<(), ()> {
        let buffer = self.buffer(which);
        let len = buffer.len() + count as usize;
        if len > BUFFER {
            return Err(());
        }
        buffer.resize(len, byte);
        Ok(())
    }

    fn header(&self) -> String {
        let answer = signature(&self.signature);
        let (size, blocks) = answer.map_or((0, 0), |read| (read.block_size, read.blocks));
        format!("h {} {size} {blocks}", number(&answer))
    }

    fn entry(&self, place: u16) -> String {
        let answer = entry(&self.signature, place.into());
        let refusal = number(&answer);
        match answer {
            Ok(Some(entry)) => format!("b 0 {} {} {}", entry.index, entry.weak, entry.strong),
            _ => format!("b {refusal} none"),
        }
    }

    fn operations(&self) -> String {
        let (list, end) = operations(&self.delta);
        let lines: String =
            list.iter().map(|operation| format!("i {}\n", shown(operation))).collect();
        format!("{lines}i {}", number(&end))
    }

    fn apply(&mut self) -> String {
        let lent = &mut self.output[..self.lent];
        let answer = apply(&self.signature, &self.old, &self.delta, lent);
        self.result = answer.as_ref().map_or(0, |measured| measured.len);
        let weigh = |(&byte, weight): (&u8, u64)| u64::from(byte) * weight;
        let sum: u64 = self.output.iter().zip(1..).map(weigh).sum();
        format!("a {} {}", measured(&answer), sum % 65_521)
    }

    /// A window of the old file that with so many bytes behind it does not pass the end.
    fn window(&self, start: u32, len: u32, behind: u32) -> Option<Range<usize>> {
        let end = u64::from(start) + u64::from(len);
        let within = end + u64::from(behind) <= self.old.len() as u64;
        within.then_some(start as usize..end as usize)
    }

    fn roll(&self, start: u32, len: u32, times: u32) -> String {
        let Some(window) = self.window(start, len, times).filter(|_| len > 0) else {
            return "l none".into();
        };
        let mut sum = weak::sum(&self.old[window.clone()]);
        for at in 0..times as usize {
            let (first, next) = (self.old[window.start + at], self.old[window.end + at]);
            sum = weak::roll(sum, window.len(), first, next);
        }
        format!("l {sum}")
    }
}
