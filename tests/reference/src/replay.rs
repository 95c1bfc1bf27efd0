//! Replays a recording: every session allowed at once, every ask answered done, replies kept. A receive session is supplied nothing,
//! so no file is ever asked for.

use crate::receiver::{Answer, Receiver, Told, CARRY, REPLY, SCRATCH};

/// A receiver and its buffers.
pub struct Replay {
    receiver: Receiver,
    carry: Box<[u8; CARRY]>,
    scratch: Box<[u8; SCRATCH]>,
    reply: [u8; REPLY],
}

impl Default for Replay {
    fn default() -> Self {
        Replay {
            receiver: Receiver::default(),
            carry: Box::new([0; CARRY]),
            scratch: Box::new([0; SCRATCH]),
            reply: [0; REPLY],
        }
    }
}

impl Replay {
    /// Takes the bytes read and adds the replies that are due to `out`.
    pub fn take(&mut self, mut bytes: &[u8], out: &mut Vec<u8>) {
        while !bytes.is_empty() {
            let (carry, scratch) = (&mut self.carry[..], &mut self.scratch[..]);
            let answer = self.receiver.feed(bytes, carry, scratch, &mut self.reply);
            bytes = &bytes[answer.consumed..];
            self.keep(&answer, out);
            let next = match answer.told {
                Told::Asked(id) | Told::LastPath { id, .. } => {
                    self.receiver.allow(id.bytes(), &mut self.reply)
                }
                Told::Open | Told::Write { .. } | Told::Commit => {
                    self.receiver.done(&mut self.reply)
                }
                _ => continue,
            };
            self.keep(&next, out);
        }
    }

    fn keep(&self, answer: &Answer, out: &mut Vec<u8>) {
        out.extend_from_slice(&self.reply[..answer.reply]);
    }
}
