//! What a recording starts and hands over: a fresh receiver, every session allowed at once, every ask answered done.

use crate::receiver::{Place, Receiver, Status, Told, CARRY, REPLY, SCRATCH};
use std::collections::HashMap;
use std::ops::Range;

/// A regular file that started: where the ids of its file command stand in the recording, and the parts handed over, joined.
#[derive(Debug, PartialEq)]
pub struct Start {
    pub id: Range<usize>,
    pub fid: Range<usize>,
    pub content: Vec<u8>,
}

impl Start {
    /// The session id and the file id.
    pub fn pair<'r>(&self, recording: &'r [u8]) -> (&'r [u8], &'r [u8]) {
        (&recording[self.id.clone()], &recording[self.fid.clone()])
    }
}

/// The starts of a recording, in order.
pub fn heard(recording: &[u8]) -> Vec<Start> {
    let mut listener = Listener {
        recording,
        receiver: Receiver::default(),
        scratch: [0; SCRATCH],
        reply: [0; REPLY],
        starts: Vec::new(),
        latest: HashMap::new(),
    };
    listener.listen();
    listener.starts
}

struct Listener<'r> {
    recording: &'r [u8],
    receiver: Receiver,
    scratch: [u8; SCRATCH],
    reply: [u8; REPLY],
    starts: Vec<Start>,
    /// The place of each pair's latest start.
    latest: HashMap<(&'r [u8], &'r [u8]), usize>,
}

impl<'r> Listener<'r> {
    /// All that is left is lent to each feed, so every text stands in its piece.
    fn listen(&mut self) {
        let mut carry = [0; CARRY];
        let mut at = 0;
        while at < self.recording.len() {
            let piece = &self.recording[at..];
            let answer = self.receiver.feed(piece, &mut carry, &mut self.scratch, &mut self.reply);
            let text = match answer.text {
                Place::Piece { start, len } => at + start..at + start + len,
                _ => at..at,
            };
            self.heed(answer.told, text);
            at += answer.consumed;
        }
    }

    /// Answers what is told, and notes starts and parts.
    fn heed(&mut self, told: Told, text: Range<usize>) {
        match told {
            Told::Asked(id) | Told::LastPath { id, .. } => {
                self.receiver.allow(id.bytes(), &mut self.reply);
            }
            Told::Open => {
                // A directory's open is answered with OK: it starts nothing.
                if self.receiver.done(&mut self.reply).told == Told::Status(Status::Started) {
                    self.start(text);
                }
            }
            Told::Write { start, len, .. } => {
                self.hand_over(text, start..start + len);
                self.receiver.done(&mut self.reply);
            }
            Told::Commit => {
                self.receiver.done(&mut self.reply);
            }
            _ => {}
        }
    }

    fn start(&mut self, text: Range<usize>) {
        let (id, fid) = self.ids(text);
        let pair = (&self.recording[id.clone()], &self.recording[fid.clone()]);
        self.latest.insert(pair, self.starts.len());
        self.starts.push(Start { id, fid, content: Vec::new() });
    }

    /// Adds a part to its pair's latest start.
    fn hand_over(&mut self, text: Range<usize>, part: Range<usize>) {
        let (id, fid) = self.ids(text);
        if let Some(&place) = self.latest.get(&(&self.recording[id], &self.recording[fid])) {
            self.starts[place].content.extend_from_slice(&self.scratch[part]);
        }
    }

    fn ids(&self, text: Range<usize>) -> (Range<usize>, Range<usize>) {
        (self.value(text.clone(), b"id="), self.value(text, b"fid="))
    }

    /// Where a field's value stands in the recording. A text that was read has a known key once at most.
    fn value(&self, text: Range<usize>, key: &[u8]) -> Range<usize> {
        let mut at = text.start;
        for field in self.recording[text.clone()].split(|&byte| byte == b';') {
            if field.starts_with(key) {
                return at + key.len()..at + field.len();
            }
            at += field.len() + 1;
        }
        text.end..text.end
    }
}
