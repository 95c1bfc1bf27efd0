//! A generated script's console in receive sessions: it lists, and supplies what is asked for, right and wrong.

use crate::entries;
use crate::scripts::Maker;
use crate::streams::part;
use reference::receiver::Refusal;
use reference::script::{Buffer, Op};

impl Maker<'_> {
    /// Goes on with the listing of one of the sessions that are allowed, now and then to its end.
    pub fn list_some(&mut self) {
        if self.listing.is_empty() || !self.rng.chance(self.prompt) {
            return;
        }
        let place = self.rng.below(self.listing.len());
        let id = self.listing[place].clone();
        for _ in 0..self.rng.weighted(&[40, 30, 20, 10]) {
            let op = self.listed(id.clone());
            self.write(op);
        }
        if self.rng.chance(85) {
            self.listing.swap_remove(place);
            let path = entries::home(self.rng, &id, self.long);
            if self.write(Op::Home { id: id.clone(), path }).is_some() {
                // Refused, so the session still lists.
                self.write(Op::Home { id, path: b"/h".to_vec() });
            }
        }
    }

    /// An entry, or a path that cannot be listed.
    fn listed(&mut self, id: Vec<u8>) -> Op {
        if self.rng.chance(75) {
            return Op::List(entries::entry(self.rng, id, self.long));
        }
        let fid = entries::id(self.rng);
        Op::ListFailed { id, fid, code: self.rng.within(1, 4) as u8 }
    }

    /// Makes a call that is lent the buffer out; if it was too short, most often lends it whole and calls again. Gives the refusal.
    fn write(&mut self, op: Op) -> Option<Refusal> {
        if self.rng.chance(self.wrong / 3) {
            self.add(Op::Lend(Buffer::Out, 8195));
        }
        let refusal = self.add(op.clone())?.refusal;
        if refusal == Some(Refusal::ShortBuffer) && self.rng.chance(80) {
            self.add(Op::Lend(Buffer::Out, 8256));
            return self.add(op)?.refusal;
        }
        refusal
    }

    /// Supplies what is asked for: parts, then its end.
    pub fn serve(&mut self) {
        for _ in 0..self.rng.weighted(&[35, 30, 20, 15]) {
            let bytes = part(self.rng, self.long);
            self.write(Op::Part(bytes));
            if self.rng.chance(self.wrong) {
                self.stray();
            }
        }
        // Sometimes nothing more is done, and the next feed is refused.
        if !self.rng.chance(4) {
            self.end_request();
        }
    }

    /// Ends the request in one of the ways there are.
    pub fn end_request(&mut self) {
        if self.rng.chance(self.wrong / 2) {
            self.add(Op::Done);
        }
        match self.rng.weighted(&[70, 12, 12, 6]) {
            0 => {
                let bytes = part(self.rng, self.long);
                if self.write(Op::LastPart(bytes)).is_some() {
                    self.write(Op::LastPart(b"z".to_vec()));
                }
            }
            1 => self.reply_to_request(Op::Unlisted),
            2 => {
                let code = self.rng.within(1, 4) as u8;
                self.reply_to_request(Op::Failed(code));
            }
            _ => {
                let id = self.any_id();
                self.add(Op::Drop(id));
            }
        }
    }

    /// A call with a reply; sometimes first with a buffer that is too short, which leaves the request owed.
    fn reply_to_request(&mut self, op: Op) {
        if self.rng.chance(self.wrong / 2) {
            self.add(Op::Lend(Buffer::Reply, 123));
            self.add(op.clone());
            self.add(Op::Lend(Buffer::Reply, 192));
        }
        self.add(op);
    }

    /// One of the new calls, whether it fits or not.
    pub fn stray_supply(&mut self) -> Op {
        match self.rng.below(7) {
            0 | 1 => {
                let id = self.any_id();
                self.listed(id)
            }
            2 => {
                let id = self.any_id();
                let path = entries::home(self.rng, &id, self.long / 2);
                Op::Home { id, path }
            }
            3 => Op::Part(part(self.rng, self.long)),
            4 => Op::LastPart(part(self.rng, self.long)),
            _ => Op::Unlisted,
        }
    }
}
