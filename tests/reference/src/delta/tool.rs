//! `patch`: the new file of a delta, and what is said about it.

use super::layout::operations;
use super::script::shown;
use super::{apply, Refusal, LONGEST};
use crate::console::hex;

/// So many bytes of a file are read: one more than is taken.
pub const READ: usize = 65_537;

fn read(file: &[u8]) -> &[u8] {
    &file[..file.len().min(READ)]
}

fn refused(refusal: Refusal) -> String {
    format!("refused {}\n", refusal as u8)
}

/// The new file, if the delta was taken, and the lines for standard error: the hash, or the refusal.
pub fn run(signature: &[u8], old: &[u8], delta: &[u8]) -> (Option<Vec<u8>>, String) {
    let mut out = vec![0; LONGEST];
    let measured = match apply(read(signature), read(old), read(delta), &mut out) {
        Ok(measured) => measured,
        Err(refusal) => return (None, refused(refusal)),
    };
    out.truncate(measured.len);
    let hash = measured.hash.map_or(String::new(), |place| {
        let mut line = Vec::new();
        hex(&delta[place], &mut line);
        format!("{}\n", String::from_utf8_lossy(&line))
    });
    (Some(out), hash)
}

/// The lines of a delta's operations for standard output, and for standard error the refusal where they end.
pub fn show(delta: &[u8]) -> (String, String) {
    let (list, end) = operations(read(delta));
    let lines = list.iter().map(|operation| format!("{}\n", shown(operation))).collect();
    (lines, end.err().map_or(String::new(), refused))
}
