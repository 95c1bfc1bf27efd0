//! The receiver: the calls of document 01 with lent buffers, changed in place.

pub mod base64;
pub mod command;
pub(crate) mod frames;
mod integer;
pub mod name;
#[cfg(test)]
mod order05;
mod receives;
mod reply;
mod rules;
pub mod scan;
mod session;
mod supplies;
mod utf8;

pub use reply::Status;
pub use session::{Id, Numbers, SESSIONS};
pub use supplies::Entry;

use frames::{Found, Frames, Mark};
use reply::Reply;
use session::Table;

pub const LONGEST_TEXT: usize = 8192;
pub const LONGEST_ID: usize = 32;
/// The shortest buffers a call may be lent.
pub const CARRY: usize = 8192;
pub const SCRATCH: usize = 6144;
pub const REPLY: usize = 124;

/// Why a call or a text was refused, with the numbers of document 01, for values of order 4, and of orders 1 and 6.
#[derive(Clone, Copy, Debug, PartialEq)]
#[repr(u8)]
pub enum Refusal {
    TooLong = 1,
    Abandoned = 2,
    BadByte = 3,
    BadField = 4,
    Repeated = 5,
    /// Document 01's 6, split by what is wrong with the value.
    UnknownWord = 61,
    UnsafeCharacter = 62,
    MalformedInteger = 63,
    OutOfRange = 64,
    Base64Length = 65,
    Base64Character = 66,
    UnusedBits = 67,
    Missing = 7,
    LongId = 8,
    ShortBuffer = 9,
    AnswerOwed = 10,
    NothingOwed = 11,
    WrongSession = 12,
    /// A call past a limit, or of a sender with an id that is taken.
    PastLimit = 17,
    /// A call that is not ready to be made, or out of turn.
    NotReady = 18,
}

/// Where a reported text stands.
#[derive(Clone, Copy, Debug, Default, PartialEq)]
pub enum Place {
    #[default]
    Nowhere,
    Piece {
        start: usize,
        len: usize,
    },
    Carry {
        len: usize,
    },
}

/// What the console is told.
#[derive(Clone, Copy, Debug, Default, PartialEq)]
pub enum Told {
    #[default]
    Nothing,
    Ignored,
    Asked(Id),
    Open,
    /// A part, `len` scratch bytes from `start`; `last` if it is the file's last one.
    Write {
        start: usize,
        len: usize,
        last: bool,
    },
    Commit,
    /// A receive session is to name its paths.
    Naming,
    /// A path; its name is `len` scratch bytes from `start`, as of those below.
    Path {
        start: usize,
        len: usize,
    },
    /// The last path: the user is asked about the session.
    LastPath {
        id: Id,
        start: usize,
        len: usize,
    },
    /// A file is asked for.
    Request {
        start: usize,
        len: usize,
    },
    Withdrawn,
    Discarded,
    Committed,
    Status(Status),
    /// A text of drag and drop came: no command.
    DragDrop,
}

/// The answer of a call.
#[derive(Clone, Copy, Debug, Default)]
pub struct Answer {
    pub refusal: Option<Refusal>,
    pub consumed: usize,
    pub told: Told,
    /// The reply's length, 0 for none.
    pub reply: usize,
    /// The length of what was written into the buffer out, 0 for nothing.
    pub written: usize,
    pub text: Place,
}

impl Answer {
    fn refused(refusal: Refusal) -> Self {
        Answer { refusal: Some(refusal), ..Answer::default() }
    }

    fn told(told: Told, reply: usize) -> Self {
        Answer { told, reply, ..Answer::default() }
    }
}

/// The failure codes a console may give.
#[derive(Clone, Copy, Debug, PartialEq)]
pub enum Failure {
    Permission,
    Io,
    NoEntry,
    NoSpace,
}

impl Failure {
    fn status(self) -> Status {
        match self {
            Failure::Permission => Status::Denied,
            Failure::Io => Status::Io,
            Failure::NoEntry => Status::NoEntry,
            Failure::NoSpace => Status::NoSpace,
        }
    }
}

/// The ask that waits for the console's answer, with the places of its session and file.
#[derive(Clone, Copy, Debug)]
enum Owed {
    Open {
        session: usize,
        file: usize,
    },
    Write(Part),
    Commit {
        session: usize,
    },
    /// A file of a receive session, by the id it was asked for with.
    Request {
        session: usize,
        fid: Id,
    },
}

/// A part of a file that the console is to write.
#[derive(Clone, Copy, Debug)]
struct Part {
    session: usize,
    file: usize,
    len: usize,
    last: bool,
}

impl Owed {
    fn session(self) -> usize {
        match self {
            Owed::Open { session, .. } | Owed::Commit { session } => session,
            Owed::Request { session, .. } => session,
            Owed::Write(part) => part.session,
        }
    }
}

/// A receiver.
#[derive(Clone, Debug)]
pub struct Receiver {
    frames: Frames,
    sessions: Table,
    owed: Option<Owed>,
}

impl Default for Receiver {
    fn default() -> Self {
        Receiver { frames: Frames::new(), sessions: Table::default(), owed: None }
    }
}

/// The text of a report from its place, given the piece and the carry.
pub fn text<'a>(piece: &'a [u8], carry: &'a [u8], place: Place) -> &'a [u8] {
    let found = match place {
        Place::Nowhere => None,
        Place::Piece { start, len } => piece.get(start..start.saturating_add(len)),
        Place::Carry { len } => carry.get(..len),
    };
    found.unwrap_or_default()
}

impl Receiver {
    /// Takes one piece and consumes through the first thing to report.
    pub fn feed(
        &mut self,
        piece: &[u8],
        carry: &mut [u8],
        scratch: &mut [u8],
        reply: &mut [u8],
    ) -> Answer {
        if carry.len() < CARRY || scratch.len() < SCRATCH || reply.len() < REPLY {
            return Answer::refused(Refusal::ShortBuffer);
        }
        if self.owed.is_some() {
            return Answer::refused(Refusal::AnswerOwed);
        }
        let (consumed, found) = self.frames.advance(piece, carry);
        match found {
            Found::Nothing => Answer { consumed, ..Answer::default() },
            Found::TooLong => Answer { consumed, ..Answer::refused(Refusal::TooLong) },
            Found::Abandoned => Answer { consumed, ..Answer::refused(Refusal::Abandoned) },
            Found::Text(Mark::DragDrop, place) => {
                Answer { consumed, text: place, ..Answer::told(Told::DragDrop, 0) }
            }
            Found::Text(Mark::Transfer, place) => {
                let answer = match command::read(text(piece, carry, place), scratch) {
                    Ok(command) => self.act(&command, scratch, reply),
                    Err(refusal) => Answer::refused(refusal),
                };
                Answer { consumed, text: place, ..answer }
            }
        }
    }

    /// Opens an asked session.
    pub fn allow(&mut self, id: &[u8], reply: &mut [u8]) -> Answer {
        self.settle(id, reply, Status::Ok)
    }

    /// Drops an asked session.
    pub fn deny(&mut self, id: &[u8], reply: &mut [u8]) -> Answer {
        self.settle(id, reply, Status::Denied)
    }

    fn settle(&mut self, id: &[u8], reply: &mut [u8], status: Status) -> Answer {
        if reply.len() < REPLY {
            return Answer::refused(Refusal::ShortBuffer);
        }
        let Some(place) = self.place(id) else {
            return Answer::refused(Refusal::WrongSession);
        };
        let session = self.sessions.at(place);
        let Some(allowed) = session.state.allowed() else {
            return Answer::refused(Refusal::WrongSession);
        };
        if status == Status::Ok {
            session.state = allowed;
        } else {
            session.clear();
        }
        let quiet = session.quiet;
        let reply = Reply { quiet, id, fid: b"", size: 0, status }.write(reply);
        Answer::told(Told::Nothing, reply)
    }

    /// Drops any session present, and the ask it owed.
    pub fn drop(&mut self, id: &[u8]) -> Answer {
        let Some(place) = self.place(id) else {
            return Answer::refused(Refusal::WrongSession);
        };
        self.sessions.at(place).clear();
        if self.owed.is_some_and(|owed| owed.session() == place) {
            self.owed = None;
        }
        Answer::default()
    }

    /// The console did what it was asked.
    pub fn done(&mut self, reply: &mut [u8]) -> Answer {
        self.answer(reply, None)
    }

    /// The console could not do what it was asked.
    pub fn failed(&mut self, code: Failure, reply: &mut [u8]) -> Answer {
        self.answer(reply, Some(code.status()))
    }

    fn answer(&mut self, reply: &mut [u8], failure: Option<Status>) -> Answer {
        if reply.len() < REPLY {
            return Answer::refused(Refusal::ShortBuffer);
        }
        // A request is answered with its last part.
        if failure.is_none() && matches!(self.owed, Some(Owed::Request { .. })) {
            return Answer::refused(Refusal::NotReady);
        }
        match self.owed.take() {
            None => Answer::refused(Refusal::NothingOwed),
            Some(Owed::Open { session, file }) => self.answer_open(session, file, failure, reply),
            Some(Owed::Write(part)) => self.answer_write(part, failure, reply),
            Some(Owed::Commit { session }) => self.answer_commit(session, failure, reply),
            Some(Owed::Request { session, fid }) => {
                self.answer_request(session, fid, failure.unwrap_or(Status::Invalid), reply)
            }
        }
    }

    /// The numbers of a session that is present. No call of the papers: it refuses nothing and changes nothing.
    pub fn numbers(&self, id: &[u8]) -> Option<Numbers> {
        self.sessions.numbers(&Id::new(id)?)
    }

    /// The ids of the sessions that are present, each with its place; as little a call as `numbers`.
    pub fn present(&self) -> Vec<(usize, Id)> {
        self.sessions.present()
    }

    /// The id of the session that an answer is owed for, likewise.
    pub fn owes(&self) -> Option<Id> {
        let place = self.owed?.session();
        self.present().into_iter().find_map(|(at, id)| (at == place).then_some(id))
    }

    fn place(&self, id: &[u8]) -> Option<usize> {
        self.sessions.find(&Id::new(id)?)
    }
}
