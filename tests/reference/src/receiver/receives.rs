//! The rules of receive sessions: what a command read does to one.

use super::command::{Action, Command};
use super::name;
use super::reply::Status;
use super::rules::refuse_file;
use super::session::{Id, Session, SessionState};
use super::{Answer, Owed, Receiver, Told};

/// How many paths a session may ask for.
const PATHS: std::ops::RangeInclusive<i64> = 1..=32;

/// The status that a path meets, if any. The other checks of a file command are not made.
fn fault_of_path(session: &Session, command: &Command, scratch: &[u8]) -> Option<Status> {
    let fid = Id::new(command.fid).unwrap_or_default();
    if command.fid.is_empty() {
        Some(Status::Invalid)
    } else if session.find(&fid).is_some() {
        Some(Status::Exists)
    } else if !name::good(&scratch[command.name.clone()]) {
        Some(Status::Invalid)
    } else {
        None
    }
}

impl Receiver {
    /// Begins a session that names paths; gives the status if it cannot.
    pub(super) fn receive(&mut self, command: &Command) -> Option<Status> {
        let (Some(place), Some(id)) = (self.sessions.free(), Id::new(command.id)) else {
            return Some(Status::Busy);
        };
        if !PATHS.contains(&command.size) {
            return Some(Status::Invalid);
        }
        self.sessions.at(place).ask_paths(id, command.quiet, command.size as usize);
        None
    }

    /// A path of a session that names them.
    pub(super) fn path(
        &mut self,
        place: usize,
        command: &Command,
        scratch: &[u8],
        reply: &mut [u8],
    ) -> Answer {
        let session = self.sessions.at(place);
        if let Some(status) = fault_of_path(session, command, scratch) {
            return refuse_file(session, command.fid, status, reply);
        }
        let fid = Id::new(command.fid).unwrap_or_default();
        let (start, len) = (command.name.start, command.name.len());
        let told = if session.name(fid) {
            Told::LastPath { id: session.id, start, len }
        } else {
            Told::Path { start, len }
        };
        Answer::told(told, 0)
    }

    /// A command for a session that lists or serves.
    pub(super) fn in_open_receive(
        &mut self,
        place: usize,
        state: SessionState,
        action: Action,
        command: &Command,
        reply: &mut [u8],
    ) -> Answer {
        match action {
            Action::Send | Action::Receive => self.begun(place, reply),
            Action::File if state == SessionState::Serving => self.request(place, command),
            Action::File | Action::Data | Action::EndData | Action::Status => {
                Answer::told(Told::Ignored, 0)
            }
            Action::Finish => self.end(place, Told::Discarded, None, reply),
            Action::Cancel => self.end(place, Told::Discarded, Some(Status::Canceled), reply),
        }
    }

    /// Any file command is a request: nothing of it is checked.
    fn request(&mut self, place: usize, command: &Command) -> Answer {
        let fid = Id::new(command.fid).unwrap_or_default();
        self.owed = Some(Owed::Request { session: place, fid });
        Answer::told(Told::Request { start: command.name.start, len: command.name.len() }, 0)
    }
}
