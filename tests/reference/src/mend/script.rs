//! `mend_script`: a recording mended in rooms that the script gives, the answer and both buffers printed.

use super::{mend, ROW};
use crate::console::{BAD, FILL, LONGEST_SCRIPT};
use std::io::Write;

/// The buffers' own sizes.
pub const OUTPUT: usize = 65_536;
pub const LIST: usize = 49_152;
/// The rooms that stand before the recording: two numbers of three bytes.
pub const HEAD: usize = 6;

/// The rooms and the recording of a script, if it is one.
pub fn parts(script: &[u8]) -> Option<(usize, usize, &[u8])> {
    if script.len() > LONGEST_SCRIPT {
        return None;
    }
    let (head, recording) = script.split_at_checked(HEAD)?;
    let number = |from: usize| (0..3).map(|i| usize::from(head[from + i]) << (8 * i)).sum();
    Some((number(0), number(3), recording))
}

/// The script of these rooms and this recording.
pub fn encode(output: usize, list: usize, recording: &[u8]) -> Vec<u8> {
    let number = |room: usize| (room as u32).to_le_bytes()[..3].to_vec();
    [&number(output)[..], &number(list), recording].concat()
}

/// Runs a script and adds its output to `out`.
pub fn run(script: &[u8], out: &mut Vec<u8>) {
    let Some((output_room, list_room, recording)) = parts(script) else {
        return out.extend_from_slice(BAD);
    };
    let mut output = vec![FILL; OUTPUT];
    let mut list = vec![usize::from(FILL); LIST];
    let lent_output = &mut output[..output_room.min(OUTPUT)];
    let lent_list = &mut list[..list_room.min(LIST)];
    let (refusal, kept, rows) = match mend(recording, lent_output, lent_list) {
        Ok((kept, rows)) => (0, kept, rows),
        Err(refusal) => (refusal as u8, 0, 0),
    };
    let output_sum = sum(output.iter().map(|&byte| byte.into()));
    let list_sum = sum(list.iter().map(|&number| number as u64));
    // Writing to a vector does not fail.
    let _ = writeln!(out, "{refusal} {kept} {rows} {output_sum} {list_sum}");
    for row in list.chunks_exact(ROW).take(rows) {
        let _ = writeln!(out, "{} {} {}", row[0], row[1], row[2]);
    }
}

/// The sum of (i + 1) times member i, modulo 65521.
fn sum(members: impl Iterator<Item = u64>) -> u64 {
    members.zip(1..).map(|(member, weight)| member * weight).sum::<u64>() % 65_521
}

#[cfg(test)]
mod tests {
    use super::*;

    #[test]
    fn a_script_reads_back() {
        let script = encode(65_537, 0xab_cdef, b"abc");
        assert_eq!(parts(&script), Some((65_537, 0xab_cdef, &b"abc"[..])));
        assert_eq!(parts(&script[..6]), Some((65_537, 0xab_cdef, &b""[..])));
        assert_eq!(parts(&script[..5]), None);
    }
}
