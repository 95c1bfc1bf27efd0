//! Scripts of the scripted console: operations and their bytes.

use crate::receiver::command::FileType;
use crate::receiver::Entry;
use std::marker::PhantomData;

/// The buffer that an operation limits.
#[derive(Clone, Copy, Debug, PartialEq)]
pub enum Buffer {
    Carry,
    Scratch,
    Reply,
    Out,
}

#[derive(Clone, Debug, PartialEq)]
pub enum Op {
    Feed(Vec<u8>),
    Text,
    Allow(Vec<u8>),
    Deny(Vec<u8>),
    Drop(Vec<u8>),
    Done,
    Failed(u8),
    /// Order 10: the numbers of the session with this id.
    Numbers(Vec<u8>),
    /// Order 6: what a receive session is supplied with.
    List(Entry),
    ListFailed {
        id: Vec<u8>,
        fid: Vec<u8>,
        code: u8,
    },
    Home {
        id: Vec<u8>,
        path: Vec<u8>,
    },
    Part(Vec<u8>),
    LastPart(Vec<u8>),
    Unlisted,
    Anew,
    Lend(Buffer, u16),
}

impl Op {
    pub fn letter(&self) -> u8 {
        match self {
            Op::Feed(_) => b'f',
            Op::Text => b't',
            Op::Allow(_) => b'a',
            Op::Deny(_) => b'd',
            Op::Drop(_) => b'x',
            Op::Done => b'k',
            Op::Failed(_) => b'e',
            Op::Numbers(_) => b'y',
            Op::List(_) => b'l',
            Op::ListFailed { .. } => b'g',
            Op::Home { .. } => b'h',
            Op::Part(_) => b'p',
            Op::LastPart(_) => b'z',
            Op::Unlisted => b'u',
            Op::Anew => b'n',
            Op::Lend(Buffer::Carry, _) => b'c',
            Op::Lend(Buffer::Scratch, _) => b's',
            Op::Lend(Buffer::Reply, _) => b'r',
            Op::Lend(Buffer::Out, _) => b'o',
        }
    }

    /// Whether its call is lent the buffer out.
    pub fn writes_out(&self) -> bool {
        matches!(
            self,
            Op::List(_) | Op::ListFailed { .. } | Op::Home { .. } | Op::Part(_) | Op::LastPart(_)
        )
    }

    /// Adds the operation's bytes. Operands past their length's width are cut.
    pub fn encode(&self, out: &mut Vec<u8>) {
        out.push(self.letter());
        match self {
            Op::Feed(bytes) | Op::Part(bytes) | Op::LastPart(bytes) => long(bytes, out),
            Op::Allow(id) | Op::Deny(id) | Op::Drop(id) | Op::Numbers(id) => short(id, out),
            Op::Failed(code) => out.push(*code),
            Op::List(entry) => encode_entry(entry, out),
            Op::ListFailed { id, fid, code } => {
                short(id, out);
                short(fid, out);
                out.push(*code);
            }
            Op::Home { id, path } => {
                short(id, out);
                long(path, out);
            }
            Op::Lend(_, len) => out.extend_from_slice(&len.to_le_bytes()),
            Op::Text | Op::Done | Op::Unlisted | Op::Anew => {}
        }
    }
}

/// Bytes behind their length in one byte.
pub(crate) fn short(bytes: &[u8], out: &mut Vec<u8>) {
    let len = bytes.len().min(u8::MAX as usize);
    out.push(len as u8);
    out.extend_from_slice(&bytes[..len]);
}

/// Bytes behind their length in two bytes.
pub(crate) fn long(bytes: &[u8], out: &mut Vec<u8>) {
    let len = bytes.len().min(u16::MAX as usize);
    out.extend_from_slice(&(len as u16).to_le_bytes());
    out.extend_from_slice(&bytes[..len]);
}

/// The file types by their numbers.
const FILE_TYPES: [FileType; 4] =
    [FileType::Regular, FileType::Directory, FileType::Symlink, FileType::Link];

fn encode_entry(entry: &Entry, out: &mut Vec<u8>) {
    out.push(FILE_TYPES.iter().position(|&of| of == entry.file_type).unwrap_or(0) as u8);
    for number in [entry.modified, entry.permissions, entry.size] {
        out.extend_from_slice(&number.to_le_bytes());
    }
    [&entry.id, &entry.path_id, &entry.parent].iter().for_each(|id| short(id, out));
    [&entry.name, &entry.own_id, &entry.target].iter().for_each(|bytes| long(bytes, out));
}

/// The bytes of a list of operations.
pub fn encode(ops: &[Op]) -> Vec<u8> {
    let mut out = Vec::new();
    ops.iter().for_each(|op| op.encode(&mut out));
    out
}

/// The bytes of a script that are left, read as operands.
pub struct Operands<'s>(&'s [u8]);

impl<'s> Operands<'s> {
    pub fn bytes(&mut self, len: usize) -> Option<&'s [u8]> {
        let (taken, rest) = self.0.split_at_checked(len)?;
        self.0 = rest;
        Some(taken)
    }

    pub fn byte(&mut self) -> Option<u8> {
        Some(self.bytes(1)?[0])
    }

    pub fn number(&mut self) -> Option<u16> {
        let bytes = self.bytes(2)?;
        Some(u16::from_le_bytes([bytes[0], bytes[1]]))
    }

    pub fn wide(&mut self) -> Option<u32> {
        Some(u32::from_le_bytes(self.bytes(4)?.try_into().ok()?))
    }

    /// Eight bytes, two's complement.
    fn integer(&mut self) -> Option<i64> {
        Some(i64::from_le_bytes(self.bytes(8)?.try_into().ok()?))
    }

    /// A failure code.
    fn code(&mut self) -> Option<u8> {
        self.byte().filter(|code| (1..=4).contains(code))
    }

    fn entry(&mut self) -> Option<Entry> {
        Some(Entry {
            file_type: *FILE_TYPES.get(self.byte()? as usize)?,
            modified: self.integer()?,
            permissions: self.integer()?,
            size: self.integer()?,
            id: self.id()?,
            path_id: self.id()?,
            parent: self.id()?,
            name: self.piece()?,
            own_id: self.piece()?,
            target: self.piece()?,
        })
    }

    /// Bytes behind their length in one byte.
    pub fn id(&mut self) -> Option<Vec<u8>> {
        let len = self.byte()? as usize;
        Some(self.bytes(len)?.to_vec())
    }

    /// Bytes behind their length in two bytes.
    pub fn piece(&mut self) -> Option<Vec<u8>> {
        let len = self.number()? as usize;
        Some(self.bytes(len)?.to_vec())
    }
}

/// What a script is made of.
pub trait Operation: Sized {
    /// Reads the operands behind the letter; `None` if there is no such operation.
    fn read(letter: u8, from: &mut Operands) -> Option<Self>;
}

impl Operation for Op {
    fn read(letter: u8, from: &mut Operands) -> Option<Self> {
        Some(match letter {
            b'f' => Op::Feed(from.piece()?),
            b't' => Op::Text,
            b'a' => Op::Allow(from.id()?),
            b'd' => Op::Deny(from.id()?),
            b'x' => Op::Drop(from.id()?),
            b'k' => Op::Done,
            b'e' => Op::Failed(from.code()?),
            b'y' => Op::Numbers(from.id()?),
            b'l' => Op::List(from.entry()?),
            b'g' => Op::ListFailed { id: from.id()?, fid: from.id()?, code: from.code()? },
            b'h' => Op::Home { id: from.id()?, path: from.piece()? },
            b'p' => Op::Part(from.piece()?),
            b'z' => Op::LastPart(from.piece()?),
            b'u' => Op::Unlisted,
            b'n' => Op::Anew,
            b'c' => Op::Lend(Buffer::Carry, from.number()?),
            b's' => Op::Lend(Buffer::Scratch, from.number()?),
            b'r' => Op::Lend(Buffer::Reply, from.number()?),
            b'o' => Op::Lend(Buffer::Out, from.number()?),
            _ => return None,
        })
    }
}

/// Reads operations one after another; ends with `Some(Err(()))` at a fault.
pub struct Ops<'s, O> {
    rest: Operands<'s>,
    bad: bool,
    kind: PhantomData<O>,
}

impl<'s, O: Operation> Ops<'s, O> {
    pub fn new(script: &'s [u8]) -> Self {
        Ops { rest: Operands(script), bad: false, kind: PhantomData }
    }
}

impl<O: Operation> Iterator for Ops<'_, O> {
    type Item = Result<O, ()>;

    fn next(&mut self) -> Option<Self::Item> {
        if self.rest.0.is_empty() || self.bad {
            return None;
        }
        let op = self.rest.byte().and_then(|letter| O::read(letter, &mut self.rest));
        self.bad = op.is_none();
        Some(op.ok_or(()))
    }
}

#[cfg(test)]
mod tests {
    use super::*;

    #[test]
    fn operations_read_back() {
        let ops = vec![
            Op::Feed(b"abc".to_vec()),
            Op::Text,
            Op::Allow(b"m".to_vec()),
            Op::Deny(vec![]),
            Op::Drop(b"mm".to_vec()),
            Op::Done,
            Op::Failed(4),
            Op::Numbers(b"m".to_vec()),
            Op::List(Entry { size: i64::MIN, parent: b"p".to_vec(), ..Entry::default() }),
            Op::ListFailed { id: b"m".to_vec(), fid: b"a".to_vec(), code: 3 },
            Op::Home { id: b"m".to_vec(), path: b"/h".to_vec() },
            Op::Part(b"xy".to_vec()),
            Op::LastPart(vec![]),
            Op::Unlisted,
            Op::Anew,
            Op::Lend(Buffer::Reply, 123),
            Op::Lend(Buffer::Out, 8195),
        ];
        let bytes = encode(&ops);
        assert_eq!(Ops::new(&bytes).collect::<Result<Vec<_>, _>>(), Ok(ops));
    }

    #[test]
    fn faults_end_the_script() {
        for bad in [
            &b"Z"[..],
            b"f\x02",
            b"f\x02\x00a",
            b"e\x05",
            b"e\x00",
            b"e",
            b"a\x01",
            b"y",
            b"y\x02m",
            b"c\x01",
            b"z",
            b"l\x04",
            b"g\x01m\x00\x05",
            b"h\x01m\x01\x00",
            b"o\x01",
        ] {
            assert_eq!(Ops::<Op>::new(bad).collect::<Vec<_>>(), [Err(())]);
        }
    }
}
