//! What a command that was heard means to the sender.

use super::{FileStage, News, Sender, Stage};
use crate::receiver::command::{Action, Command};

/// The words that stop nothing.
const OK: &[u8] = b"OK";
const STARTED: &[u8] = b"STARTED";
const PROGRESS: &[u8] = b"PROGRESS";

impl Sender {
    /// Heeds a status of this session; everything else is ignored, and so is everything before send.
    pub(super) fn heed(&mut self, command: &Command, scratch: &[u8]) -> News {
        if command.action != Some(Action::Status) || command.id != self.id.bytes() {
            return News::Ignored;
        }
        let word = &scratch[command.status.clone()];
        if command.fid.is_empty() {
            return self.heed_session(command, word);
        }
        match self.find(command.fid) {
            Some(file) => self.heed_file(file, command, word),
            None => News::Ignored,
        }
    }

    fn heed_session(&mut self, command: &Command, word: &[u8]) -> News {
        match word {
            OK if self.stage == Stage::Waiting => {
                self.stage = Stage::Open;
                News::Allowed
            }
            OK | STARTED | PROGRESS => News::Noted,
            _ => {
                self.stage = Stage::Stopped;
                News::SessionStopped { status: command.status.clone() }
            }
        }
    }

    fn heed_file(&mut self, file: usize, command: &Command, word: &[u8]) -> News {
        let record = &mut self.files[file];
        match word {
            OK if u64::try_from(command.size) != Ok(record.sent) => {
                return News::Differs { file, size: command.size };
            }
            OK if record.stage == FileStage::Sent => record.stage = FileStage::Closed,
            OK | STARTED | PROGRESS => {}
            _ => {
                record.stage = FileStage::Stopped;
                return News::FileStopped { file, status: command.status.clone() };
            }
        }
        News::Noted
    }
}
