//! The session rules: what a command read, or the console's answer, does to the sessions.

use super::command::{Action, Command, FileType, Transmission};
use super::name;
use super::reply::{Reply, Status};
use super::session::{File, FileState, Id, Session, SessionState};
use super::{Answer, Owed, Part, Receiver, Told};

pub(super) const LARGEST_PART: usize = 4096;
const LARGEST_FILE: u64 = 1 << 40;
const PERMISSIONS: std::ops::RangeInclusive<i64> = 0..=4095;

/// A reply that concerns the session alone.
fn about_session(quiet: u8, id: &[u8], status: Status, reply: &mut [u8]) -> usize {
    Reply { quiet, id, fid: b"", size: 0, status }.write(reply)
}

/// The answer whose only outcome is the status of a file command, with no record made.
pub(super) fn refuse_file(
    session: &Session,
    fid: &[u8],
    status: Status,
    reply: &mut [u8],
) -> Answer {
    let id = session.id.bytes();
    let len = Reply { quiet: session.quiet, id, fid, size: 0, status }.write(reply);
    Answer::told(Told::Status(status), len)
}

/// A size is a regular file's alone: below zero it is bad, above it declares the length.
fn bad_size(command: &Command) -> bool {
    command.file_type == FileType::Regular && command.size < 0
}

fn declared_by(command: &Command) -> Option<u64> {
    let declares = command.file_type == FileType::Regular && command.size > 0;
    declares.then_some(command.size as u64)
}

/// The status that a file command meets before its record is made, if any.
fn fault_of_file(session: &Session, command: &Command, scratch: &[u8]) -> Option<Status> {
    let fid = Id::new(command.fid).unwrap_or_default();
    if command.fid.is_empty() {
        Some(Status::Invalid)
    } else if session.find(&fid).is_some() {
        Some(Status::Exists)
    } else if matches!(command.file_type, FileType::Symlink | FileType::Link)
        || command.transmission == Transmission::Rsync
    {
        Some(Status::NotSupported)
    } else if !PERMISSIONS.contains(&command.permissions)
        || bad_size(command)
        || !name::good(&scratch[command.name.clone()])
    {
        Some(Status::Invalid)
    } else if session.full() {
        Some(Status::TooManyFiles)
    } else {
        None
    }
}

/// The status that a part of a started file meets before its write is asked, if any.
fn fault_of_part(record: &File, len: usize, last: bool) -> Option<Status> {
    let count = record.count + len as u64;
    if len > LARGEST_PART {
        Some(Status::Invalid)
    } else if count > LARGEST_FILE || record.declared.is_some_and(|declared| count > declared) {
        Some(Status::TooBig)
    } else if last && record.declared.is_some_and(|declared| count < declared) {
        Some(Status::Invalid)
    } else {
        None
    }
}

impl Receiver {
    /// The action table.
    pub(super) fn act(&mut self, command: &Command, scratch: &[u8], reply: &mut [u8]) -> Answer {
        let Some(action) = command.action else {
            return Answer::told(Told::Ignored, 0);
        };
        match self.sessions.of(command) {
            None => self.without_session(action, command, reply),
            Some((place, SessionState::Open)) => {
                self.in_open(place, action, command, scratch, reply)
            }
            Some((place, state @ (SessionState::Listing | SessionState::Serving))) => {
                self.in_open_receive(place, state, action, command, reply)
            }
            Some((place, SessionState::Naming)) if action == Action::File => {
                self.path(place, command, scratch, reply)
            }
            Some((place, _)) if action == Action::Cancel => {
                self.end(place, Told::Withdrawn, Some(Status::Canceled), reply)
            }
            Some((place, _)) => self.end(place, Told::Withdrawn, None, reply),
        }
    }

    fn without_session(&mut self, action: Action, command: &Command, reply: &mut [u8]) -> Answer {
        let status = match action {
            Action::Send => match (self.sessions.free(), Id::new(command.id)) {
                (Some(place), Some(id)) => {
                    self.sessions.at(place).ask(id, command.quiet);
                    return Answer::told(Told::Asked(id), 0);
                }
                _ => Status::Busy,
            },
            Action::Receive => match self.receive(command) {
                None => return Answer::told(Told::Naming, 0),
                Some(status) => status,
            },
            _ => return Answer::told(Told::Ignored, 0),
        };
        let len = about_session(command.quiet, command.id, status, reply);
        Answer::told(Told::Status(status), len)
    }

    fn in_open(
        &mut self,
        place: usize,
        action: Action,
        command: &Command,
        scratch: &[u8],
        reply: &mut [u8],
    ) -> Answer {
        match action {
            Action::Send | Action::Receive => self.begun(place, reply),
            Action::File => self.file(place, command, scratch, reply),
            Action::Data => self.part(place, command, false, reply),
            Action::EndData => self.part(place, command, true, reply),
            Action::Finish => self.finish(place, reply),
            Action::Cancel => self.end(place, Told::Discarded, Some(Status::Canceled), reply),
            Action::Status => Answer::told(Told::Ignored, 0),
        }
    }

    /// A session that is open cannot begin.
    pub(super) fn begun(&mut self, place: usize, reply: &mut [u8]) -> Answer {
        let session = self.sessions.at(place);
        let len = about_session(session.quiet, session.id.bytes(), Status::Invalid, reply);
        Answer::told(Told::Status(Status::Invalid), len)
    }

    fn file(
        &mut self,
        place: usize,
        command: &Command,
        scratch: &[u8],
        reply: &mut [u8],
    ) -> Answer {
        let session = self.sessions.at(place);
        if let Some(status) = fault_of_file(session, command, scratch) {
            return refuse_file(session, command.fid, status, reply);
        }
        let fid = Id::new(command.fid).unwrap_or_default();
        let directory = command.file_type == FileType::Directory;
        let file = session.add(fid, directory, declared_by(command));
        self.owed = Some(Owed::Open { session: place, file });
        Answer::told(Told::Open, 0)
    }

    fn part(&mut self, place: usize, command: &Command, last: bool, reply: &mut [u8]) -> Answer {
        let session = self.sessions.at(place);
        let found = Id::new(command.fid).and_then(|fid| session.find(&fid));
        let Some(file) = found.filter(|&file| session.file(file).state == FileState::Started)
        else {
            return Answer::told(Told::Ignored, 0);
        };
        let record = session.file(file);
        let len = command.data.len();
        if let Some(status) = fault_of_part(record, len, last) {
            record.state = FileState::Failed;
            return self.report_file(place, file, 0, status, reply);
        }
        self.owed = Some(Owed::Write(Part { session: place, file, len, last }));
        Answer::told(Told::Write { start: command.data.start, len, last }, 0)
    }

    fn finish(&mut self, place: usize, reply: &mut [u8]) -> Answer {
        if self.sessions.at(place).any_started() {
            return self.end(place, Told::Discarded, Some(Status::Invalid), reply);
        }
        self.owed = Some(Owed::Commit { session: place });
        Answer::told(Told::Commit, 0)
    }

    /// Drops a session; its own quiet decides whether the status is sent.
    pub(super) fn end(
        &mut self,
        place: usize,
        told: Told,
        status: Option<Status>,
        reply: &mut [u8],
    ) -> Answer {
        let session = self.sessions.at(place);
        session.clear();
        let send = |status| about_session(session.quiet, session.id.bytes(), status, reply);
        Answer::told(told, status.map_or(0, send))
    }

    pub(super) fn answer_open(
        &mut self,
        session: usize,
        file: usize,
        failure: Option<Status>,
        reply: &mut [u8],
    ) -> Answer {
        let record = self.sessions.at(session).file(file);
        let (state, status) = match (failure, record.directory) {
            (Some(status), _) => (FileState::Failed, status),
            (None, true) => (FileState::Done, Status::Ok),
            (None, false) => (FileState::Started, Status::Started),
        };
        record.state = state;
        self.report_file(session, file, 0, status, reply)
    }

    pub(super) fn answer_write(
        &mut self,
        part: Part,
        failure: Option<Status>,
        reply: &mut [u8],
    ) -> Answer {
        let record = self.sessions.at(part.session).file(part.file);
        if let Some(status) = failure {
            record.state = FileState::Failed;
            return self.report_file(part.session, part.file, 0, status, reply);
        }
        record.count += part.len as u64;
        let count = record.count;
        let status = if part.last {
            record.state = FileState::Done;
            Status::Ok
        } else {
            Status::Progress
        };
        self.report_file(part.session, part.file, count, status, reply)
    }

    pub(super) fn answer_commit(
        &mut self,
        session: usize,
        failure: Option<Status>,
        reply: &mut [u8],
    ) -> Answer {
        let told = if failure.is_some() { Told::Discarded } else { Told::Committed };
        self.end(session, told, failure, reply)
    }

    /// The answer whose only outcome is the status of a file with a record.
    fn report_file(
        &mut self,
        session: usize,
        file: usize,
        size: u64,
        status: Status,
        reply: &mut [u8],
    ) -> Answer {
        let session = self.sessions.at(session);
        let fid = session.file(file).id;
        let (quiet, id) = (session.quiet, session.id.bytes());
        let len = Reply { quiet, id, fid: fid.bytes(), size, status }.write(reply);
        Answer::told(Told::Status(status), len)
    }
}

#[cfg(test)]
mod tests {
    use super::*;
    use crate::receiver::{CARRY, REPLY, SCRATCH};

    fn feed(receiver: &mut Receiver, text: &str) -> Told {
        let piece = format!("\x1b]5113;{text}\x1b\\");
        let (mut carry, mut scratch, mut reply) = ([0; CARRY], [0; SCRATCH], [0; REPLY]);
        receiver.feed(piece.as_bytes(), &mut carry, &mut scratch, &mut reply).told
    }

    /// No script is long enough to reach 2^40 bytes, so the record is set just below.
    #[test]
    fn a_file_has_at_most_2_to_the_40_bytes() {
        for (count, told) in [
            (LARGEST_FILE - 3, Told::Write { start: 0, len: 3, last: false }),
            (LARGEST_FILE - 2, Told::Status(Status::TooBig)),
        ] {
            let mut receiver = Receiver::default();
            feed(&mut receiver, "ac=send;id=m");
            receiver.allow(b"m", &mut [0; REPLY]);
            feed(&mut receiver, "ac=file;id=m;fid=a;n=L256");
            receiver.done(&mut [0; REPLY]);
            receiver.sessions.at(0).file(0).count = count;
            assert_eq!(feed(&mut receiver, "ac=data;id=m;fid=a;d=YWJj"), told);
            let state = receiver.sessions.at(0).file(0).state;
            let failed = told == Told::Status(Status::TooBig);
            assert_eq!(state == FileState::Failed, failed);
        }
    }
}
