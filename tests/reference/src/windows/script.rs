//! `windows_script`: two recordings compared into a list of the room that the script gives, the answer and the list printed.

use super::{compare, ROW};
use crate::console::{BAD, FILL, LONGEST_SCRIPT};
use std::io::Write;

/// The list's own size in numbers.
pub const LIST: usize = 23_124;
/// The list's room and the first recording's length stand before the recordings: two numbers of three bytes.
pub const HEAD: usize = 6;

/// The list's room and the two recordings of a script, if it is one.
pub fn parts(script: &[u8]) -> Option<(usize, &[u8], &[u8])> {
    if script.len() > LONGEST_SCRIPT {
        return None;
    }
    let (head, recordings) = script.split_at_checked(HEAD)?;
    let number = |from: usize| (0..3).map(|i| usize::from(head[from + i]) << (8 * i)).sum();
    let (first, second) = recordings.split_at_checked(number(3))?;
    Some((number(0), first, second))
}

/// The script of this room and these recordings.
pub fn encode(room: usize, first: &[u8], second: &[u8]) -> Vec<u8> {
    let number = |number: usize| (number as u32).to_le_bytes()[..3].to_vec();
    [&number(room)[..], &number(first.len()), first, second].concat()
}

/// Runs a script and adds its output to `out`.
pub fn run(script: &[u8], out: &mut Vec<u8>) {
    let Some((room, first, second)) = parts(script) else {
        return out.extend_from_slice(BAD);
    };
    let mut list = vec![usize::from(FILL); LIST];
    let (refusal, rows) = match compare(first, second, &mut list[..room.min(LIST)]) {
        Ok(rows) => (0, rows),
        Err(refusal) => (refusal as u8, 0),
    };
    // Writing to a vector does not fail.
    let _ = writeln!(out, "{refusal} {rows} {}", sum(&list));
    for row in list.chunks_exact(ROW).take(rows) {
        let numbers: Vec<String> = row.iter().map(usize::to_string).collect();
        let _ = writeln!(out, "{}", numbers.join(" "));
    }
}

/// The sum of (i + 1) times number i, modulo 65521.
fn sum(list: &[usize]) -> u64 {
    list.iter().zip(1..).map(|(&number, weight)| number as u64 * weight).sum::<u64>() % 65_521
}

#[cfg(test)]
mod tests {
    use super::*;

    #[test]
    fn a_script_reads_back() {
        let script = encode(0xab_cdef, b"abc", b"de");
        assert_eq!(parts(&script), Some((0xab_cdef, &b"abc"[..], &b"de"[..])));
        assert_eq!(parts(&script[..9]), Some((0xab_cdef, &b"abc"[..], &b""[..])));
        assert_eq!(parts(&script[..8]), None);
        assert_eq!(parts(&script[..5]), None);
    }
}
