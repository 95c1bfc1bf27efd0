//! Order 9: mends a recording. The command frames that read without refusal are kept; all other bytes are listed, with the reason.

pub mod script;
pub mod tool;

use crate::receiver::{command, Refusal, SCRATCH};

/// A longer recording is not taken.
pub const LONGEST: usize = 65_536;
/// The numbers of a row in the list: start, length, why.
pub const ROW: usize = 3;

const ESCAPE: u8 = 0x1b;
const OPEN: u8 = 0x5d;
const CLOSE: u8 = 0x5c;
const COMMAND: &[u8] = b"5113;";

/// A dropped stretch; `why` is the refusal's number, 0 outside commands.
#[derive(Clone, Copy, Debug, PartialEq)]
pub struct Row {
    pub start: usize,
    pub len: usize,
    pub why: u8,
}

/// What a recording comes to.
#[derive(Debug, Default)]
pub struct Mended {
    pub kept: Vec<u8>,
    pub rows: Vec<Row>,
}

/// Mends into lent memory: gives the bytes kept and the rows listed. Refused, both are as before.
pub fn mend(
    recording: &[u8],
    output: &mut [u8],
    list: &mut [usize],
) -> Result<(usize, usize), Refusal> {
    let Mended { kept, rows } = mended(recording)?;
    if output.len() < kept.len() || list.len() < ROW * rows.len() {
        return Err(Refusal::ShortBuffer);
    }
    output[..kept.len()].copy_from_slice(&kept);
    for (place, row) in list.chunks_exact_mut(ROW).zip(&rows) {
        place.copy_from_slice(&[row.start, row.len, row.why.into()]);
    }
    Ok((kept.len(), rows.len()))
}

/// What is kept and what is dropped.
pub fn mended(recording: &[u8]) -> Result<Mended, Refusal> {
    if recording.len() > LONGEST {
        return Err(Refusal::PastLimit);
    }
    let mut sorter = Sorter { recording, settled: 0, mended: Mended::default() };
    let mut mode = Mode::Plain;
    for (at, &byte) in recording.iter().enumerate() {
        mode = sorter.byte(mode, at, byte);
    }
    // A command that is unfinished here is outside too.
    sorter.outside(recording.len());
    Ok(sorter.mended)
}

/// Where the scan stands between two bytes, as document 01 says; a text's start is that of its opener.
#[derive(Clone, Copy)]
enum Mode {
    Plain,
    Escape,
    Text(usize),
    TextEscape(usize),
}

struct Sorter<'r> {
    recording: &'r [u8],
    /// What lies before this place is kept or listed.
    settled: usize,
    mended: Mended,
}

impl Sorter<'_> {
    /// The mode behind this byte. A text is judged where it ends.
    fn byte(&mut self, mode: Mode, at: usize, byte: u8) -> Mode {
        match (mode, byte) {
            (Mode::Plain, ESCAPE) => Mode::Escape,
            (Mode::Plain, _) => Mode::Plain,
            (Mode::Escape, _) => after_escape(at, byte),
            (Mode::Text(start), ESCAPE) => Mode::TextEscape(start),
            (Mode::Text(start), _) => Mode::Text(start),
            (Mode::TextEscape(start), CLOSE) => {
                self.closed(start, at + 1);
                Mode::Plain
            }
            (Mode::TextEscape(start), _) => {
                self.abandoned(start, at - 1);
                after_escape(at, byte)
            }
        }
    }

    /// A frame with opener and closer.
    fn closed(&mut self, start: usize, end: usize) {
        let text = &self.recording[start + 2..end - 2];
        if !text.starts_with(COMMAND) {
            return;
        }
        match command::read(text, &mut [0; SCRATCH]) {
            Ok(_) => self.keep(start, end),
            Err(refusal) => self.refuse(start, end, refusal),
        }
    }

    /// A text whose 1B stands at `end` and closes nothing.
    fn abandoned(&mut self, start: usize, end: usize) {
        if self.recording[start + 2..end].starts_with(COMMAND) {
            self.refuse(start, end, Refusal::Abandoned);
        }
    }

    fn keep(&mut self, start: usize, end: usize) {
        self.outside(start);
        self.mended.kept.extend_from_slice(&self.recording[start..end]);
        self.settled = end;
    }

    fn refuse(&mut self, start: usize, end: usize, refusal: Refusal) {
        self.outside(start);
        self.list(end, refusal as u8);
    }

    /// All that is not settled before `end` is outside: one stretch, if there is any.
    fn outside(&mut self, end: usize) {
        if self.settled < end {
            self.list(end, 0);
        }
    }

    fn list(&mut self, end: usize, why: u8) {
        let start = self.settled;
        self.mended.rows.push(Row { start, len: end - start, why });
        self.settled = end;
    }
}

/// The mode behind a byte that follows a 1B which belongs to no text.
fn after_escape(at: usize, byte: u8) -> Mode {
    match byte {
        OPEN => Mode::Text(at - 1),
        ESCAPE => Mode::Escape,
        _ => Mode::Plain,
    }
}
