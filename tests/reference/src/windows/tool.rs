//! `compare_windows`: what it writes about two recordings.

use super::{rows, Row, Verdict};

/// So many bytes of a recording are read: one more than is taken.
pub const READ: usize = 65_537;

/// The lines for standard output.
pub fn run(first: &[u8], second: &[u8]) -> Vec<u8> {
    let (first, second) = (read(first), read(second));
    match rows(first, second) {
        Ok(rows) => {
            let lines = rows.iter().map(|row| line(row, first, second));
            let counts =
                [Verdict::Same, Verdict::Different(0), Verdict::OnlyFirst, Verdict::OnlySecond]
                    .map(|verdict| count(&rows, verdict));
            lines.chain([summary(counts)]).collect::<Vec<_>>().concat()
        }
        Err(refusal) => format!("refused {}\n", refusal as u8).into_bytes(),
    }
}

fn read(recording: &[u8]) -> &[u8] {
    &recording[..recording.len().min(READ)]
}

/// The line of a row.
fn line(row: &Row, first: &[u8], second: &[u8]) -> Vec<u8> {
    let recording = if row.verdict == Verdict::OnlySecond { second } else { first };
    let verdict = match row.verdict {
        Verdict::Same => "same".to_string(),
        Verdict::Different(offset) => format!("different at {offset}"),
        Verdict::OnlyFirst => "only in the first".to_string(),
        Verdict::OnlySecond => "only in the second".to_string(),
    };
    named(&recording[row.id.clone()], &recording[row.fid.clone()], &verdict)
}

/// The line of a pair and what is said of it.
pub fn named(id: &[u8], fid: &[u8], verdict: &str) -> Vec<u8> {
    [id, b"\t", fid, b"\t", verdict.as_bytes(), b"\n"].concat()
}

fn count(rows: &[Row], verdict: Verdict) -> usize {
    rows.iter().filter(|row| row.verdict.number() == verdict.number()).count()
}

/// The last line: how many are same, different, only in the first, only in the second.
pub fn summary([same, different, first, second]: [usize; 4]) -> Vec<u8> {
    let starts = format!("{first} only in the first, {second} only in the second");
    format!("{same} same, {different} different, {starts}\n").into_bytes()
}
