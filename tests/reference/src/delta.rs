//! Order 13: signatures read, deltas read and applied to an old file, and the weak sum.

pub mod layout;
pub mod script;
pub mod tool;
pub mod weak;

use layout::{operations, signature, Operation};
use std::ops::Range;

/// A longer input is not taken, and no longer result is given.
pub const LONGEST: usize = 65_536;

/// Why a call was refused, with its number.
#[derive(Clone, Copy, Debug, PartialEq)]
#[repr(u8)]
pub enum Refusal {
    NoRoom = 9,
    Damaged = 16,
    TooLong = 17,
}

/// What a delta comes to: the result's length, and where its hash stands in the delta if it has one.
#[derive(Clone, Debug, PartialEq)]
pub struct Measured {
    pub len: usize,
    pub hash: Option<Range<usize>>,
}

/// An old file in blocks.
struct Blocks<'o> {
    old: &'o [u8],
    size: u128,
}

impl Blocks<'_> {
    /// Whether the block starts before the end of the file.
    fn has(&self, index: u128) -> bool {
        index * self.size < self.old.len() as u128
    }

    /// A block that is there; the last one may be short.
    fn get(&self, index: u128) -> &[u8] {
        let start = (index * self.size) as usize;
        let rest = &self.old[start..];
        &rest[..self.size.min(rest.len() as u128) as usize]
    }

    /// The length of so many blocks on end that are there.
    fn length(&self, first: u128, count: u128) -> u64 {
        let end = ((first + count) * self.size).min(self.old.len() as u128);
        (end - first * self.size) as u64
    }
}

/// The first block that an operation copies, and how many it copies.
fn copied(operation: &Operation) -> Option<(u128, u128)> {
    match *operation {
        Operation::Block(index) => Some((index.into(), 1)),
        Operation::Blocks(first, more) => Some((first.into(), u128::from(more) + 1)),
        _ => None,
    }
}

/// The operations of a delta for this signature and old file, once all of it is found good.
fn sound<'o>(
    sig: &[u8],
    old: &'o [u8],
    delta: &[u8],
) -> Result<(Blocks<'o>, Vec<Operation>), Refusal> {
    if [sig, old, delta].iter().any(|input| input.len() > LONGEST) {
        return Err(Refusal::TooLong);
    }
    let blocks = Blocks { old, size: signature(sig)?.block_size.into() };
    let (operations, end) = operations(delta);
    end?;
    let within = |(first, count)| blocks.has(first + count - 1);
    if !operations.iter().filter_map(copied).all(within) || hashes(&operations).count() > 1 {
        return Err(Refusal::Damaged);
    }
    Ok((blocks, operations))
}

fn hashes(operations: &[Operation]) -> impl Iterator<Item = &Range<usize>> {
    operations.iter().filter_map(|operation| match operation {
        Operation::Hash(place) => Some(place),
        _ => None,
    })
}

/// What applying the delta would give.
pub fn measure(sig: &[u8], old: &[u8], delta: &[u8]) -> Result<Measured, Refusal> {
    let (blocks, operations) = sound(sig, old, delta)?;
    let length = |operation: &Operation| match (copied(operation), operation) {
        (Some((first, count)), _) => blocks.length(first, count),
        (None, Operation::Data(place)) => place.len() as u64,
        _ => 0,
    };
    let len: u64 = operations.iter().map(length).sum();
    if len > LONGEST as u64 {
        return Err(Refusal::NoRoom);
    }
    let hash = hashes(&operations).next().cloned();
    Ok(Measured { len: len as usize, hash })
}

/// Writes the result from the output's start. Refused, the output is as before.
pub fn apply(sig: &[u8], old: &[u8], delta: &[u8], out: &mut [u8]) -> Result<Measured, Refusal> {
    let measured = measure(sig, old, delta)?;
    let room = out.get_mut(..measured.len).ok_or(Refusal::NoRoom)?;
    let (blocks, operations) = sound(sig, old, delta)?;
    let mut result: Vec<u8> = Vec::new();
    for operation in &operations {
        if let Some((first, count)) = copied(operation) {
            (first..first + count).for_each(|index| result.extend_from_slice(blocks.get(index)));
        } else if let Operation::Data(place) = operation {
            result.extend_from_slice(&delta[place.clone()]);
        }
    }
    room.copy_from_slice(&result);
    Ok(measured)
}
