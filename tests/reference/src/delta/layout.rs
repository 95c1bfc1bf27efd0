//! The layout of signatures and deltas in source 001: read, and for examples and inputs laid out.

use super::{Refusal, LONGEST};
use std::ops::Range;

const HEADER: usize = 12;
const ENTRY: usize = 20;

/// A signature's header, and how many blocks it lists.
#[derive(Clone, Copy, Debug, PartialEq)]
pub struct Signature {
    pub block_size: u32,
    pub blocks: usize,
}

/// The signature of a block.
#[derive(Clone, Copy, Debug, PartialEq)]
pub struct Entry {
    pub index: u64,
    pub weak: u32,
    pub strong: u64,
}

/// An operation; payloads are places in the delta.
#[derive(Clone, Debug, PartialEq)]
pub enum Operation {
    Block(u64),
    Data(Range<usize>),
    Hash(Range<usize>),
    /// A block and so many more.
    Blocks(u64, u32),
}

/// Reads from a place on; `None` where what is asked for is cut off.
struct Reader<'b> {
    bytes: &'b [u8],
    at: usize,
}

impl Reader<'_> {
    fn run(&mut self, len: u64) -> Option<Range<usize>> {
        let left = (self.bytes.len() - self.at) as u64;
        if len > left {
            return None;
        }
        let start = self.at;
        self.at += len as usize;
        Some(start..self.at)
    }

    /// A number of so many bytes, the lowest first.
    fn number(&mut self, width: u64) -> Option<u64> {
        let place = self.run(width)?;
        Some(self.bytes[place].iter().rev().fold(0, |number, &byte| number << 8 | u64::from(byte)))
    }

    fn operation(&mut self) -> Option<Operation> {
        Some(match self.number(1)? {
            0 => Operation::Block(self.number(8)?),
            1 => {
                let len = self.number(4)?;
                Operation::Data(self.run(len)?)
            }
            2 => {
                let len = self.number(2)?;
                Operation::Hash(self.run(len)?)
            }
            3 => Operation::Blocks(self.number(8)?, self.number(4)? as u32),
            _ => return None,
        })
    }
}

/// Reads a whole signature.
pub fn signature(bytes: &[u8]) -> Result<Signature, Refusal> {
    if bytes.len() > LONGEST {
        return Err(Refusal::TooLong);
    }
    let mut reader = Reader { bytes, at: 0 };
    let mut field = |width| reader.number(width).ok_or(Refusal::Damaged);
    let kinds = [field(2)?, field(2)?, field(2)?, field(2)?];
    let block_size = field(4)? as u32;
    let listed = bytes.len() - HEADER;
    if kinds != [0; 4] || block_size == 0 || listed % ENTRY != 0 {
        return Err(Refusal::Damaged);
    }
    Ok(Signature { block_size, blocks: listed / ENTRY })
}

/// The signature of the block that is listed at this place, if so many are.
pub fn entry(bytes: &[u8], place: usize) -> Result<Option<Entry>, Refusal> {
    signature(bytes)?;
    let entry = bytes[HEADER..].chunks_exact(ENTRY).nth(place).map(|bytes| {
        let mut reader = Reader { bytes, at: 0 };
        let mut field = |width| reader.number(width).unwrap_or_default();
        Entry { index: field(8), weak: field(4) as u32, strong: field(8) }
    });
    Ok(entry)
}

/// The operations of a delta up to its end, or up to what cannot be read.
pub fn operations(delta: &[u8]) -> (Vec<Operation>, Result<(), Refusal>) {
    if delta.len() > LONGEST {
        return (Vec::new(), Err(Refusal::TooLong));
    }
    let mut reader = Reader { bytes: delta, at: 0 };
    let mut list = Vec::new();
    while reader.at < delta.len() {
        match reader.operation() {
            Some(operation) => list.push(operation),
            None => return (list, Err(Refusal::Damaged)),
        }
    }
    (list, Ok(()))
}

/// A header; `kinds` are the four fields before the block size.
pub fn header(kinds: [u16; 4], block_size: u32) -> Vec<u8> {
    let kinds = kinds.iter().flat_map(|kind| kind.to_le_bytes());
    kinds.chain(block_size.to_le_bytes()).collect()
}

impl Entry {
    pub fn laid(&self) -> Vec<u8> {
        let (index, strong) = (self.index.to_le_bytes(), self.strong.to_le_bytes());
        [&index[..], &self.weak.to_le_bytes(), &strong].concat()
    }
}

pub fn block(index: u64) -> Vec<u8> {
    [&[0][..], &index.to_le_bytes()].concat()
}

pub fn data(payload: &[u8]) -> Vec<u8> {
    [&[1][..], &(payload.len() as u32).to_le_bytes(), payload].concat()
}

pub fn hash(checksum: &[u8]) -> Vec<u8> {
    [&[2][..], &(checksum.len() as u16).to_le_bytes(), checksum].concat()
}

pub fn blocks(first: u64, more: u32) -> Vec<u8> {
    [&[3][..], &first.to_le_bytes(), &more.to_le_bytes()].concat()
}
