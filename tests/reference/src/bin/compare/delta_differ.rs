//! A small differ: blocks of the old file looked for in the new one by their weak sum.

use reference::delta::layout::{block, blocks, data, header, Entry};
use reference::delta::weak;
use std::collections::HashMap;

/// The signature of a file. What stands for the strong sum is looked at by nobody.
pub fn signature_of(old: &[u8], size: u32) -> Vec<u8> {
    let entry = |(index, bytes): (usize, &[u8])| {
        let strong = bytes.iter().fold(0, |sum: u64, &byte| sum.rotate_left(7) ^ u64::from(byte));
        Entry { index: index as u64, weak: weak::sum(bytes), strong }.laid()
    };
    let entries = old.chunks(size as usize).enumerate().flat_map(entry);
    header([0; 4], size).into_iter().chain(entries).collect()
}

/// The operations of a delta as they come up: blocks on end become one range.
#[derive(Default)]
struct Writer {
    parts: Vec<Vec<u8>>,
    data: Vec<u8>,
    /// The first block of a run, and how many more.
    run: Option<(u64, u32)>,
}

impl Writer {
    fn block(&mut self, index: u64) {
        self.flush_data();
        self.run = match self.run {
            Some((first, more)) if first + u64::from(more) + 1 == index => Some((first, more + 1)),
            _ => {
                self.flush_run();
                Some((index, 0))
            }
        };
    }

    fn byte(&mut self, byte: u8) {
        self.flush_run();
        self.data.push(byte);
    }

    fn flush_data(&mut self) {
        let bytes = std::mem::take(&mut self.data);
        if !bytes.is_empty() {
            self.parts.push(data(&bytes));
        }
    }

    fn flush_run(&mut self) {
        match self.run.take() {
            Some((index, 0)) => self.parts.push(block(index)),
            Some((first, more)) => self.parts.push(blocks(first, more)),
            None => {}
        }
    }
}

/// The operations, each laid out, that make the new file from the old one.
pub fn diff(old: &[u8], new: &[u8], size: u32) -> Vec<Vec<u8>> {
    let size = size as usize;
    let mut known: HashMap<u32, Vec<usize>> = HashMap::new();
    for (index, bytes) in old.chunks(size).enumerate() {
        known.entry(weak::sum(bytes)).or_default().push(index);
    }
    let block = |index: usize| &old[index * size..old.len().min((index + 1) * size)];
    let found = |sum: u32, bytes: &[u8]| {
        known.get(&sum)?.iter().copied().find(|&index| block(index) == bytes)
    };
    let mut writer = Writer::default();
    let mut at = 0;
    // The sum of the window that stands at `at`; worked out afresh behind a block and where the window gets shorter.
    let mut sum = None;
    while at < new.len() {
        let window = &new[at..new.len().min(at + size)];
        let here = sum.take().unwrap_or_else(|| weak::sum(window));
        if let Some(index) = found(here, window) {
            writer.block(index as u64);
            at += window.len();
            continue;
        }
        let next = new.get(at + window.len());
        sum = next.map(|&next| weak::roll(here, window.len(), new[at], next));
        writer.byte(new[at]);
        at += 1;
    }
    writer.flush_data();
    writer.flush_run();
    writer.parts
}

#[cfg(test)]
mod tests {
    use super::*;
    use reference::delta::apply;

    fn made(old: &[u8], new: &[u8], size: u32) -> Vec<Vec<u8>> {
        let parts = diff(old, new, size);
        let mut out = vec![0; new.len()];
        let measured = apply(&signature_of(old, size), old, &parts.concat(), &mut out).unwrap();
        assert_eq!((measured.len, &out[..]), (new.len(), new));
        parts
    }

    /// Applied, what the differ makes is the new file, and it finds what stayed.
    #[test]
    fn a_delta_makes_the_new_file() {
        let old: Vec<u8> = (0..1000u32).map(|i| (i * i / 11) as u8).collect();
        let moved = [&b"xy"[..], &old[8..], &old[..8], b"z"].concat();
        for size in [1, 2, 7, 8, 100, 999, 1000, 1001, u32::MAX] {
            made(&old, &old, size);
            made(&old, &moved, size);
            made(&old, b"", size);
            made(b"", &old, size);
        }
        let parts = made(&old, &moved, 8);
        assert_eq!(parts, [data(b"xy"), blocks(1, 123), block(0), data(b"z")]);
        // The short block is found at the end.
        assert_eq!(made(b"abcde", b"xabcde", 2), [data(b"x"), blocks(0, 2)]);
    }
}
