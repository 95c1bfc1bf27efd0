//! Sessions and their file records: fixed room, used again when freed.

use super::command::Command;
use super::LONGEST_ID;

pub const SESSIONS: usize = 4;
pub const FILES: usize = 32;

/// A session or file id. The bytes beyond its length are zero, so equality may compare them all.
#[derive(Clone, Copy, Debug, Default, PartialEq, Eq)]
pub struct Id {
    len: u8,
    bytes: [u8; LONGEST_ID],
}

impl Id {
    /// `None` if the bytes are too long to be an id.
    pub fn new(bytes: &[u8]) -> Option<Id> {
        let mut id = Id::default();
        id.bytes.get_mut(..bytes.len())?.copy_from_slice(bytes);
        id.len = bytes.len() as u8;
        Some(id)
    }

    pub fn bytes(&self) -> &[u8] {
        &self.bytes[..self.len as usize]
    }
}

#[derive(Clone, Copy, Debug, Default, PartialEq)]
pub enum FileState {
    #[default]
    Opening,
    /// A path of a receive session.
    Named,
    Started,
    Done,
    Failed,
}

#[derive(Clone, Copy, Debug, Default)]
pub struct File {
    pub id: Id,
    pub state: FileState,
    pub directory: bool,
    /// The length that its command declared, if any.
    pub declared: Option<u64>,
    pub count: u64,
}

#[derive(Clone, Copy, Debug, Default, PartialEq)]
pub enum SessionState {
    #[default]
    Absent,
    Asked,
    Open,
    /// A receive session whose paths are still to come.
    Naming,
    /// The user is asked about a receive session.
    Waiting,
    /// An open receive session before its home OK.
    Listing,
    /// The same after it.
    Serving,
}

impl SessionState {
    /// What the session becomes if the user allows it; none if the user is not asked.
    pub fn allowed(self) -> Option<SessionState> {
        match self {
            SessionState::Asked => Some(SessionState::Open),
            SessionState::Waiting => Some(SessionState::Listing),
            _ => None,
        }
    }
}

/// What a console may show of a session: its started files, and the bytes of its done ones.
#[derive(Clone, Copy, Debug, PartialEq)]
pub struct Numbers {
    pub started: usize,
    pub done_bytes: u64,
}

#[derive(Clone, Debug, Default)]
pub struct Session {
    pub state: SessionState,
    pub quiet: u8,
    pub id: Id,
    files: [File; FILES],
    used: usize,
    /// The paths still to be named.
    left: usize,
}

impl Session {
    /// Takes free room for a new session.
    pub fn ask(&mut self, id: Id, quiet: u8) {
        self.state = SessionState::Asked;
        self.quiet = quiet;
        self.id = id;
        self.used = 0;
    }

    /// Takes free room for a receive session of so many paths.
    pub fn ask_paths(&mut self, id: Id, quiet: u8, paths: usize) {
        self.ask(id, quiet);
        self.state = SessionState::Naming;
        self.left = paths;
    }

    pub fn clear(&mut self) {
        self.state = SessionState::Absent;
    }

    pub fn find(&self, fid: &Id) -> Option<usize> {
        self.files[..self.used].iter().position(|file| file.id == *fid)
    }

    pub fn full(&self) -> bool {
        self.used == FILES
    }

    /// Adds a record that is opening and gives its place. The session must not be full.
    pub fn add(&mut self, id: Id, directory: bool, declared: Option<u64>) -> usize {
        self.files[self.used] = File { id, directory, declared, ..File::default() };
        self.used += 1;
        self.used - 1
    }

    /// Keeps the id of a path; answers whether it was the last one, so that the user is asked.
    pub fn name(&mut self, id: Id) -> bool {
        let place = self.add(id, false, None);
        self.files[place].state = FileState::Named;
        self.left -= 1;
        if self.left == 0 {
            self.state = SessionState::Waiting;
        }
        self.left == 0
    }

    pub fn file(&mut self, place: usize) -> &mut File {
        &mut self.files[place]
    }

    /// Both numbers of order 10, counted from the records.
    pub fn numbers(&self) -> Numbers {
        let of = |state| self.files[..self.used].iter().filter(move |file| file.state == state);
        let started = of(FileState::Started).count();
        Numbers { started, done_bytes: of(FileState::Done).map(|file| file.count).sum() }
    }

    pub fn any_started(&self) -> bool {
        self.files[..self.used].iter().any(|file| file.state == FileState::Started)
    }
}

/// The four sessions.
#[derive(Clone, Debug, Default)]
pub struct Table([Session; SESSIONS]);

impl Table {
    /// The place of the session with this id, if it is present.
    pub fn find(&self, id: &Id) -> Option<usize> {
        let present = |s: &Session| s.state != SessionState::Absent && s.id == *id;
        self.0.iter().position(present)
    }

    pub fn free(&self) -> Option<usize> {
        self.0.iter().position(|s| s.state == SessionState::Absent)
    }

    /// The ids of the sessions that are present, each with its place.
    pub fn present(&self) -> Vec<(usize, Id)> {
        let present = self.0.iter().enumerate().filter(|(_, s)| s.state != SessionState::Absent);
        present.map(|(place, session)| (place, session.id)).collect()
    }

    pub fn numbers(&self, id: &Id) -> Option<Numbers> {
        Some(self.0[self.find(id)?].numbers())
    }

    pub fn at(&mut self, place: usize) -> &mut Session {
        &mut self.0[place]
    }

    /// The place and state for a command's id.
    pub fn of(&self, command: &Command) -> Option<(usize, SessionState)> {
        let place = self.find(&Id::new(command.id)?)?;
        Some((place, self.0[place].state))
    }
}
