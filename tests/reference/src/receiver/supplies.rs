//! What a console supplies in a receive session: its listing, and the files that are asked for.

use super::command::FileType;
use super::reply::{Reply, Status};
use super::rules::LARGEST_PART;
use super::session::{Id, Session, SessionState};
use super::{Answer, Failure, Owed, Receiver, Refusal, Told, REPLY};
use crate::writer::{room, Command};

/// An entry of a listing.
#[derive(Clone, Debug, Default, PartialEq)]
pub struct Entry {
    pub file_type: FileType,
    pub modified: i64,
    pub permissions: i64,
    pub size: i64,
    pub id: Vec<u8>,
    /// The id of the path that it answers.
    pub path_id: Vec<u8>,
    pub parent: Vec<u8>,
    pub name: Vec<u8>,
    pub own_id: Vec<u8>,
    /// What a link points at.
    pub target: Vec<u8>,
}

impl Entry {
    pub fn command(&self) -> Command<'_> {
        Command {
            action: "file",
            file_type: self.file_type,
            id: &self.id,
            fid: &self.path_id,
            modified: self.modified,
            permissions: self.permissions,
            size: self.size.into(),
            name: &self.name,
            status: &self.own_id,
            parent: &self.parent,
            data: &self.target,
        }
    }
}

/// The number of bytes written, or the refusal.
type Written = Result<usize, Refusal>;

fn answer(written: Written) -> Answer {
    match written {
        Ok(written) => Answer { written, ..Answer::default() },
        Err(refusal) => Answer::refused(refusal),
    }
}

/// Writes a status unless the session's quiet holds it back; whether it is refused does not depend on that.
fn write_status(status: Status, quiet: u8, command: Command, out: &mut [u8]) -> Written {
    let command = Command { action: "status", status: status.word().as_bytes(), ..command };
    if status.held_back(quiet) {
        return command.frame().map(|_| 0);
    }
    command.write(out)
}

impl Receiver {
    /// Writes an entry of the listing.
    pub fn list(&mut self, entry: &Entry, out: &mut [u8]) -> Answer {
        let written = self.listing(&entry.id, out).and_then(|_| entry.command().write(out));
        answer(written)
    }

    /// Writes that a path cannot be listed.
    pub fn list_failed(&mut self, id: &[u8], fid: &[u8], code: Failure, out: &mut [u8]) -> Answer {
        let written = self.listing(id, out).and_then(|session| {
            let command = Command { id, fid, ..Command::default() };
            write_status(code.status(), session.quiet, command, out)
        });
        answer(written)
    }

    /// Ends the listing with the OK that names the home directory.
    pub fn home(&mut self, id: &[u8], path: &[u8], out: &mut [u8]) -> Answer {
        let written = self.listing(id, out).and_then(|session| {
            let command = Command { id, name: path, ..Command::default() };
            let len = write_status(Status::Ok, session.quiet, command, out)?;
            session.state = SessionState::Serving;
            Ok(len)
        });
        answer(written)
    }

    /// The session with this id if it lists, once the buffer is long enough.
    fn listing(&mut self, id: &[u8], out: &[u8]) -> Result<&mut Session, Refusal> {
        room(out)?;
        let place = self.place(id).ok_or(Refusal::NotReady)?;
        let session = self.sessions.at(place);
        if session.state != SessionState::Listing {
            return Err(Refusal::NotReady);
        }
        Ok(session)
    }

    /// Writes a part of the file that is asked for; the last one answers the request.
    pub fn supply(&mut self, bytes: &[u8], last: bool, out: &mut [u8]) -> Answer {
        answer(self.write_part(bytes, last, out))
    }

    fn write_part(&mut self, data: &[u8], last: bool, out: &mut [u8]) -> Written {
        room(out)?;
        if data.len() > LARGEST_PART {
            return Err(Refusal::PastLimit);
        }
        let Some(Owed::Request { session, fid }) = self.owed else {
            return Err(Refusal::NotReady);
        };
        let action = if last { "end_data" } else { "data" };
        let (id, fid) = (self.sessions.at(session).id.bytes(), fid.bytes());
        let len = Command { action, id, fid, data, ..Command::default() }.write(out)?;
        if last {
            self.owed = None;
        }
        Ok(len)
    }

    /// What is asked for is a directory or was not listed.
    pub fn unlisted(&mut self, reply: &mut [u8]) -> Answer {
        if reply.len() < REPLY {
            return Answer::refused(Refusal::ShortBuffer);
        }
        let Some(Owed::Request { session, fid }) = self.owed else {
            return Answer::refused(Refusal::NotReady);
        };
        self.answer_request(session, fid, Status::Invalid, reply)
    }

    /// Answers a request with a status.
    pub(super) fn answer_request(
        &mut self,
        session: usize,
        fid: Id,
        status: Status,
        reply: &mut [u8],
    ) -> Answer {
        self.owed = None;
        let session = self.sessions.at(session);
        let (quiet, id) = (session.quiet, session.id.bytes());
        let len = Reply { quiet, id, fid: fid.bytes(), size: 0, status }.write(reply);
        Answer::told(Told::Status(status), len)
    }
}
