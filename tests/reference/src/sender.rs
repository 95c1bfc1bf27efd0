//! The sender, the client end of a send session: order 1's calls with lent buffers, on a sender changed in place.

pub mod console;
mod heed;
pub mod script;

use crate::receiver::frames::{Found, Frames, Mark};
use crate::receiver::{command, text, Id, Place, Refusal, CARRY, SCRATCH};
use crate::writer::{room, Command};
use std::ops::Range;

pub use crate::writer::OUT;

pub const LARGEST_PIECE: usize = 4096;
pub const MOST_FILES: usize = 32;

/// How far the session is.
#[derive(Clone, Copy, Debug, PartialEq)]
pub enum Stage {
    Fresh,
    /// Send is written.
    Waiting,
    Open,
    Finished,
    Stopped,
}

/// How far a file is whose command was written.
#[derive(Clone, Copy, Debug, PartialEq)]
pub enum FileStage {
    Sending,
    /// The last piece is written.
    Sent,
    /// An OK has agreed after the last piece.
    Closed,
    Stopped,
}

#[derive(Clone, Copy, Debug)]
pub struct File {
    pub stage: FileStage,
    /// The content bytes in the commands written for it.
    pub sent: u64,
    id: Id,
}

/// What a hear tells.
#[derive(Clone, Debug, Default, PartialEq)]
pub enum News {
    #[default]
    Nothing,
    Ignored,
    Noted,
    Allowed,
    /// A file's OK has another size than what was sent.
    Differs {
        file: usize,
        size: i64,
    },
    /// The status's place is in the scratch.
    FileStopped {
        file: usize,
        status: Range<usize>,
    },
    SessionStopped {
        status: Range<usize>,
    },
}

/// The answer of a hear.
#[derive(Clone, Debug, Default)]
pub struct Heard {
    pub refusal: Option<Refusal>,
    pub consumed: usize,
    pub news: News,
    pub text: Place,
}

/// The length of the frame, or why nothing was written and nothing changed.
pub type Written = Result<usize, Refusal>;

/// A sender.
#[derive(Debug)]
pub struct Sender {
    frames: Frames,
    stage: Stage,
    /// Empty before send; no command that reads has an empty one.
    id: Id,
    files: Vec<File>,
}

impl Default for Sender {
    fn default() -> Self {
        let (stage, id, files) = (Stage::Fresh, Id::default(), Vec::new());
        Sender { frames: Frames::new(), stage, id, files }
    }
}

fn within(limits: bool) -> Result<(), Refusal> {
    limits.then_some(()).ok_or(Refusal::PastLimit)
}

fn ready(ready: bool) -> Result<(), Refusal> {
    ready.then_some(()).ok_or(Refusal::NotReady)
}

/// An id that the writer took, so it is not too long.
fn taken(id: &[u8]) -> Id {
    Id::new(id).unwrap_or_default()
}

impl Sender {
    pub fn stage(&self) -> Stage {
        self.stage
    }

    pub fn files(&self) -> &[File] {
        &self.files
    }

    /// Starts the session.
    pub fn send(&mut self, id: &[u8], out: &mut [u8]) -> Written {
        room(out)?;
        ready(self.stage == Stage::Fresh)?;
        let len = Command { action: "send", id, ..Command::default() }.write(out)?;
        self.id = taken(id);
        self.stage = Stage::Waiting;
        Ok(len)
    }

    /// Starts the next file.
    pub fn file(&mut self, fid: &[u8], name: &[u8], size: u64, out: &mut [u8]) -> Written {
        room(out)?;
        within(self.files.len() < MOST_FILES && self.find(fid).is_none())?;
        ready(self.between_files())?;
        let (id, rest) = (self.id.bytes(), Command::default());
        let len =
            Command { action: "file", id, fid, size: size.into(), name, ..rest }.write(out)?;
        self.files.push(File { stage: FileStage::Sending, sent: 0, id: taken(fid) });
        Ok(len)
    }

    /// Sends the next piece of the current file, which may be its last one.
    pub fn piece(&mut self, data: &[u8], last: bool, out: &mut [u8]) -> Written {
        room(out)?;
        within(data.len() <= LARGEST_PIECE)?;
        let open = self.stage == Stage::Open;
        let current = self.files.last_mut().filter(|file| file.stage == FileStage::Sending);
        let file = current.filter(|_| open).ok_or(Refusal::NotReady)?;
        let action = if last { "end_data" } else { "data" };
        let (id, fid) = (self.id.bytes(), file.id.bytes());
        let len = Command { action, id, fid, data, ..Command::default() }.write(out)?;
        file.sent = file.sent.saturating_add(data.len() as u64);
        if last {
            file.stage = FileStage::Sent;
        }
        Ok(len)
    }

    /// Ends the session.
    pub fn finish(&mut self, out: &mut [u8]) -> Written {
        room(out)?;
        ready(self.between_files())?;
        let id = self.id.bytes();
        let len = Command { action: "finish", id, ..Command::default() }.write(out)?;
        self.stage = Stage::Finished;
        Ok(len)
    }

    /// Takes a piece of the line and consumes through the first text with a mark that ends. One of drag and drop is ignored.
    pub fn hear(&mut self, piece: &[u8], carry: &mut [u8], scratch: &mut [u8]) -> Heard {
        if carry.len() < CARRY || scratch.len() < SCRATCH {
            return Heard { refusal: Some(Refusal::ShortBuffer), ..Heard::default() };
        }
        let (consumed, found) = self.frames.advance(piece, carry);
        let refused = |refusal| Heard { refusal: Some(refusal), consumed, ..Heard::default() };
        match found {
            Found::Nothing => Heard { consumed, ..Heard::default() },
            Found::TooLong => refused(Refusal::TooLong),
            Found::Abandoned => refused(Refusal::Abandoned),
            Found::Text(Mark::DragDrop, place) => {
                Heard { consumed, news: News::Ignored, text: place, ..Heard::default() }
            }
            Found::Text(Mark::Transfer, place) => {
                match command::read(text(piece, carry, place), scratch) {
                    Ok(command) => {
                        let news = self.heed(&command, scratch);
                        Heard { consumed, news, text: place, ..Heard::default() }
                    }
                    Err(refusal) => Heard { text: place, ..refused(refusal) },
                }
            }
        }
    }

    /// Whether the next file or finish may follow.
    fn between_files(&self) -> bool {
        let sending = self.files.last().is_some_and(|file| file.stage == FileStage::Sending);
        self.stage == Stage::Open && !sending
    }

    fn find(&self, fid: &[u8]) -> Option<usize> {
        self.files.iter().position(|file| file.id.bytes() == fid)
    }
}

#[cfg(test)]
mod tests {
    use super::*;

    /// "The count stays at 2^64 - 1, where no `sz` that can be read equals it."
    #[test]
    fn the_count_stays_at_its_limit() {
        let (mut out, mut carry, mut scratch) = ([0; OUT], [0; CARRY], [0; SCRATCH]);
        let mut sender = Sender::default();
        sender.send(b"m", &mut out).unwrap();
        sender.stage = Stage::Open;
        sender.file(b"a", b"/nz", 0, &mut out).unwrap();
        for (before, after) in [(i64::MAX as u64 - 1, i64::MAX as u64), (u64::MAX - 1, u64::MAX)] {
            sender.files[0].sent = before;
            sender.piece(b"x", false, &mut out).unwrap();
            assert_eq!(sender.files[0].sent, after);
            let ok = b"\x1b]5113;ac=status;id=m;fid=a;sz=9223372036854775807;st=T0s=\x1b\\";
            let news = sender.hear(ok, &mut carry, &mut scratch).news;
            let agrees = after == i64::MAX as u64;
            let told = if agrees { News::Noted } else { News::Differs { file: 0, size: i64::MAX } };
            assert_eq!(news, told);
        }
        sender.piece(b"xyz", true, &mut out).unwrap();
        assert_eq!(sender.files[0].sent, u64::MAX);
    }
}
