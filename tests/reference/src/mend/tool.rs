//! `mend`: what it writes about a recording.

use super::{mended, Mended, Row};

/// So many bytes of a recording are read: one more than is taken.
pub const READ: usize = 65_537;

/// The bytes for standard output and the lines for standard error.
pub fn run(recording: &[u8]) -> (Vec<u8>, String) {
    match mended(&recording[..recording.len().min(READ)]) {
        Ok(mended) => {
            let lines = lines(&mended);
            (mended.kept, lines)
        }
        Err(refusal) => (Vec::new(), format!("refused {}\n", refusal as u8)),
    }
}

fn lines(mended: &Mended) -> String {
    let rows: String = mended.rows.iter().map(line).collect();
    let dropped: usize = mended.rows.iter().map(|row| row.len).sum();
    rows + &summary(mended.kept.len(), dropped, mended.rows.len())
}

fn line(row: &Row) -> String {
    match row.why {
        0 => format!("{} {} outside\n", row.start, row.len),
        why => format!("{} {} refusal {why}\n", row.start, row.len),
    }
}

/// The last line.
pub fn summary(kept: usize, dropped: usize, rows: usize) -> String {
    format!("kept {kept} bytes, dropped {dropped} bytes in {rows} stretches\n")
}
