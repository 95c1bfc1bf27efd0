//! Scripts for a sender: operations and their bytes.

use crate::script::{long, short, Operands, Operation};

/// The buffer that an operation limits.
#[derive(Clone, Copy, Debug, PartialEq)]
pub enum Buffer {
    Out,
    Carry,
    Scratch,
}

#[derive(Clone, Debug, PartialEq)]
pub enum Op {
    Send(Vec<u8>),
    File {
        fid: Vec<u8>,
        name: Vec<u8>,
        size: u64,
    },
    Piece(Vec<u8>),
    Last(Vec<u8>),
    Finish,
    Hear(Vec<u8>),
    /// The text of the latest hear's report.
    Text,
    Anew,
    Lend(Buffer, u16),
}

impl Op {
    pub fn letter(&self) -> u8 {
        match self {
            Op::Send(_) => b's',
            Op::File { .. } => b'f',
            Op::Piece(_) => b'p',
            Op::Last(_) => b'l',
            Op::Finish => b'e',
            Op::Hear(_) => b'h',
            Op::Text => b't',
            Op::Anew => b'n',
            Op::Lend(Buffer::Out, _) => b'b',
            Op::Lend(Buffer::Carry, _) => b'c',
            Op::Lend(Buffer::Scratch, _) => b'w',
        }
    }

    /// Adds the operation's bytes. Operands past their length's width are cut.
    pub fn encode(&self, out: &mut Vec<u8>) {
        out.push(self.letter());
        match self {
            Op::Send(id) => short(id, out),
            Op::File { fid, name, size } => {
                short(fid, out);
                long(name, out);
                out.extend_from_slice(&size.to_le_bytes());
            }
            Op::Piece(bytes) | Op::Last(bytes) | Op::Hear(bytes) => long(bytes, out),
            Op::Lend(_, len) => out.extend_from_slice(&len.to_le_bytes()),
            Op::Finish | Op::Text | Op::Anew => {}
        }
    }
}

/// The bytes of a list of operations.
pub fn encode(ops: &[Op]) -> Vec<u8> {
    let mut out = Vec::new();
    ops.iter().for_each(|op| op.encode(&mut out));
    out
}

impl Operation for Op {
    fn read(letter: u8, from: &mut Operands) -> Option<Self> {
        Some(match letter {
            b's' => Op::Send(from.id()?),
            b'f' => {
                let (fid, name) = (from.id()?, from.piece()?);
                let size = u64::from_le_bytes(from.bytes(8)?.try_into().ok()?);
                Op::File { fid, name, size }
            }
            b'p' => Op::Piece(from.piece()?),
            b'l' => Op::Last(from.piece()?),
            b'e' => Op::Finish,
            b'h' => Op::Hear(from.piece()?),
            b't' => Op::Text,
            b'n' => Op::Anew,
            b'b' => Op::Lend(Buffer::Out, from.number()?),
            b'c' => Op::Lend(Buffer::Carry, from.number()?),
            b'w' => Op::Lend(Buffer::Scratch, from.number()?),
            _ => return None,
        })
    }
}

#[cfg(test)]
mod tests {
    use super::*;
    use crate::script::Ops;

    #[test]
    fn operations_read_back() {
        let ops = vec![
            Op::Send(b"m".to_vec()),
            Op::File { fid: vec![], name: b"/nz".to_vec(), size: 1 << 63 },
            Op::Piece(vec![0; 300]),
            Op::Last(vec![]),
            Op::Finish,
            Op::Hear(b"\x1b".to_vec()),
            Op::Text,
            Op::Anew,
            Op::Lend(Buffer::Out, 8196),
            Op::Lend(Buffer::Carry, 0),
            Op::Lend(Buffer::Scratch, u16::MAX),
        ];
        let bytes = encode(&ops);
        assert_eq!(Ops::new(&bytes).collect::<Result<Vec<Op>, _>>(), Ok(ops));
    }

    #[test]
    fn every_cut_operation_is_a_fault() {
        let file = Op::File { fid: b"a".to_vec(), name: b"/nz".to_vec(), size: 3 };
        let whole = [Op::Send(b"m".to_vec()), file, Op::Piece(b"x".to_vec()), Op::Hear(vec![1])];
        for op in whole.into_iter().chain([Op::Lend(Buffer::Out, 1)]) {
            let bytes = encode(&[op]);
            for len in 1..bytes.len() {
                assert_eq!(Ops::<Op>::new(&bytes[..len]).collect::<Vec<_>>(), [Err(())]);
            }
        }
    }
}
