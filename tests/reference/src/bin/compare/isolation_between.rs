//! Order 14: what stands between the acts of one session in a script: anything that is no act of it.

use crate::bad_texts;
use crate::entries;
use crate::fields::{Fields, ACTIONS};
use crate::framing::{damaged, framed, noise};
use crate::isolation_pairs::Weaver;
use crate::receives;
use crate::rng::Rng;
use crate::scripts::{cut, Line};
use crate::streams::{any_command, part, stream_of, Shape};
use reference::receiver::SESSIONS;
use reference::script::{Buffer, Op};

/// A chunk of others that is longer comes rarely.
const LONG_CHUNK: usize = 3_000;

impl Weaver<'_> {
    /// One thing that is no act of the session; a feed only where it may be.
    pub fn something(&mut self, feeds: bool) {
        match self.maker.rng.weighted(&[38, 10, 14, 8, 6, 7, 10, 7]) {
            0 if feeds => self.others_go_on(),
            1 if feeds => self.maker.stray(),
            3 if feeds => self.nobodys_text(),
            4 if feeds => self.fill(),
            5 if feeds => self.others_command(),
            6 => self.others_call(),
            7 if feeds => self.others_begin(),
            _ => self.own_refused(),
        }
    }

    /// The next piece of what others send, with their console.
    fn others_go_on(&mut self) {
        if self.line.rest().is_empty() {
            let rng = &mut *self.maker.rng;
            let shape = Shape {
                commands: rng.within(2, 10),
                damage: *rng.pick(&[0, 0, 10]),
                noise: *rng.pick(&[0, 10]),
                big: *rng.pick(&[0, 0, 2]),
            };
            let count = rng.within(1, self.ids.len());
            let mut chunks = stream_of(rng, &shape, &self.ids[..count]);
            let long = rng.chance(4);
            chunks.retain(|chunk| long || chunk.len() < LONG_CHUNK);
            self.line = Line::new(&chunks, cut(rng));
        }
        if !self.maker.go_on(&mut self.line) {
            self.line = Line::default();
        }
    }

    /// Noise, and texts that are refused, also with the session's id in them: they are about nobody.
    fn nobodys_text(&mut self) {
        let rng = &mut *self.maker.rng;
        let id = if rng.chance(50) { self.id.to_vec() } else { rng.pick(&self.ids).clone() };
        let action = *rng.pick(&ACTIONS);
        let bytes = match rng.below(4) {
            0 => noise(rng),
            1 => damaged(rng, &Fields::new(action, &id).text()),
            2 => {
                let long = vec![b'X'; *rng.pick(&[8192, 8300])];
                let times = if rng.chance(15) { 1 } else { 0 };
                let fields = Fields::new(action, &id).with("x", &long.repeat(times));
                framed(&bad_texts::faulty(rng, fields))
            }
            _ => framed(&bad_texts::faulty(rng, Fields::new(action, &id).with("fid", b"a"))),
        };
        self.feed(&bytes);
    }

    /// Feeds bytes of others to their end, with their console.
    fn feed(&mut self, bytes: &[u8]) {
        let mut at = 0;
        while at < bytes.len() {
            let Some(answer) = self.maker.add(Op::Feed(bytes[at..].to_vec())) else {
                return;
            };
            self.maker.react(&answer);
            if answer.consumed == 0 {
                return;
            }
            at += answer.consumed;
        }
    }

    /// Sessions of others until all places are taken.
    pub fn fill(&mut self) {
        for id in self.ids.clone() {
            if self.maker.console.receiver().present().len() == SESSIONS {
                return;
            }
            let fields = if self.maker.rng.chance(60) {
                Fields::new("send", &id).with("q", self.maker.rng.word(&["0", "0", "1", "2"]))
            } else {
                receives::beginning(self.maker.rng, &id, 1)
            };
            self.feed(&framed(&fields.text()));
        }
    }

    /// The ids of the other sessions that are present.
    pub fn present(&self) -> Vec<Vec<u8>> {
        let present = self.maker.console.receiver().present().into_iter();
        present.map(|(_, id)| id.bytes().to_vec()).filter(|id| id != self.id).collect()
    }

    /// Any command for another session, most often for one that is present.
    fn others_command(&mut self) {
        let present = self.present();
        let rng = &mut *self.maker.rng;
        let ids = if present.is_empty() || rng.chance(30) { &self.ids } else { &present };
        let action = match rng.below(4) {
            0 => "cancel",
            1 => "file",
            _ => *rng.pick(&ACTIONS),
        };
        let shape = Shape { commands: 1, damage: 0, noise: 0, big: 0 };
        let fids = [b"a".to_vec(), b"A".to_vec()];
        let fields = any_command(rng, &shape, action, ids, &fids);
        self.feed(&framed(&fields.text()));
    }

    /// Another session, brought some steps far with each call that it needs: with the same file ids, started, listing, asking.
    fn others_begin(&mut self) {
        let rng = &mut *self.maker.rng;
        let id = rng.pick(&self.ids).clone();
        let fid: &[u8] = rng.word(&["a", "A", "1"]);
        let feed = |fields: Fields| Op::Feed(framed(&fields.text()));
        let of = |action: &str| Fields::new(action, &id);
        let file = || feed(of("file").with("fid", fid).with("n", b"L256"));
        let (allow, home) = (Op::Allow(id.clone()), Op::Home { id: id.clone(), path: b"/".into() });
        let steps = if rng.chance(50) {
            let data = |text: &[u8]| feed(of("data").with("fid", fid).with("d", text));
            let quiet = rng.word(&["0", "1", "2"]);
            let begun = [feed(of("send").with("q", quiet)), allow, file(), Op::Done];
            [&begun[..], &[data(b"YWJjZA=="), Op::Done, data(b"YQ=="), Op::Done]].concat()
        } else {
            let entry = Op::List(entries::entry(rng, id.clone(), 0));
            let begun = [feed(of("receive").with("sz", b"1")), file(), allow, entry];
            [&begun[..], &[home, file(), Op::Part(b"xy".into()), Op::LastPart(b"z".into())]]
                .concat()
        };
        let count = rng.within(2, steps.len());
        self.lend_whole();
        for op in steps.into_iter().take(count) {
            self.maker.add(op);
        }
    }

    /// Any call for another session that is present.
    fn others_call(&mut self) {
        let present = self.present();
        let rng = &mut *self.maker.rng;
        let ids = if present.is_empty() { &self.ids } else { &present };
        let id = rng.pick(ids).clone();
        let op = call(rng, id);
        self.maker.add(op);
    }

    /// A call of the session that is refused; those that would not be are not made.
    fn own_refused(&mut self) {
        let rng = &mut *self.maker.rng;
        let op = match rng.below(7) {
            0 => Op::Done,
            1 => Op::Failed(rng.within(1, 4) as u8),
            2 => Op::Unlisted,
            3 => Op::Part(vec![b'p'; *rng.pick(&[0, 3, 4097])]),
            4 => Op::LastPart(vec![b'z'; *rng.pick(&[0, 3, 4097])]),
            5 => {
                let action = *rng.pick(&ACTIONS);
                Op::Feed(framed(&Fields::new(action, self.id).text()))
            }
            _ => call(rng, self.id.to_vec()),
        };
        if rng.chance(35) {
            let (buffer, len) = *rng.pick(&[
                (Buffer::Carry, 8191),
                (Buffer::Scratch, 6143),
                (Buffer::Reply, 123),
                (Buffer::Out, 8195),
            ]);
            self.maker.add(Op::Lend(buffer, len));
        }
        self.maker.add(op);
        if self.maker.rng.chance(80) {
            self.lend_whole();
        }
    }
}

/// A call with an id.
fn call(rng: &mut Rng, id: Vec<u8>) -> Op {
    match rng.below(7) {
        0 => Op::Allow(id),
        1 => Op::Deny(id),
        2 => Op::Drop(id),
        3 => Op::List(entries::entry(rng, id, 2)),
        4 => Op::ListFailed { id, fid: entries::id(rng), code: rng.within(1, 4) as u8 },
        5 => Op::Home { path: entries::home(rng, &id, 2), id },
        _ => Op::Part(part(rng, 0)),
    }
}
