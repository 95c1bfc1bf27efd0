//! Generated scripts: a stream fed in pieces, with the console's calls, right and wrong ones.
//!
//! The reference runs along, so that most calls fit what was told.

use crate::isolation_acts::Watch;
use crate::rng::Rng;
use crate::streams::{stream, Shape, Stream};
use reference::console::Console;
use reference::receiver::{Answer, Place, Refusal, Told};
use reference::script::{encode, Buffer, Op};

/// A script stops after so many operations or bytes.
const MOST_OPS: usize = 220;
const MOST_BYTES: usize = 24_000;

/// How a stream is cut into pieces.
#[derive(Clone, Copy, Default)]
pub enum Cut {
    /// As the stream was made.
    #[default]
    Chunks,
    /// At most so many bytes.
    Within(usize),
    /// Just after a 1B.
    Escapes,
}

pub struct Maker<'r> {
    pub rng: &'r mut Rng,
    pub console: Console,
    pub ops: Vec<Op>,
    pub bytes: usize,
    ids: Vec<Vec<u8>>,
    /// Calls that do not fit, in a hundred.
    pub wrong: usize,
    /// Failures among the answers, in a hundred.
    failures: usize,
    /// Sessions left asked for a while, in a hundred.
    hesitates: usize,
    /// Looks at a session's numbers, in a hundred of the places before and after an answer.
    looks: usize,
    /// Those that were left asked; some are meanwhile withdrawn.
    waiting: Vec<Vec<u8>>,
    /// Receive sessions whose last path was named, and of them those allowed that list; some are meanwhile gone.
    named: Vec<Vec<u8>>,
    pub listing: Vec<Vec<u8>>,
    /// Whether the latest ask was a request.
    requested: bool,
    /// Listings taken up before a feed, in a hundred.
    pub prompt: usize,
    /// Operands of a supply about as long as they may be, in a hundred.
    pub long: usize,
    /// A session that is left to others: none of its acts is made here.
    pub spared: Option<Watch>,
    /// Whether the latest operation was one, made for it.
    pub acted: bool,
}

/// A stream that is fed piece by piece.
#[derive(Default)]
pub struct Line {
    stream: Vec<u8>,
    /// The places where chunks end.
    ends: Vec<usize>,
    at: usize,
    cut: Cut,
}

impl Line {
    pub fn new(chunks: &[Vec<u8>], cut: Cut) -> Line {
        Line { stream: chunks.concat(), ends: ends(chunks), at: 0, cut }
    }

    pub fn rest(&self) -> &[u8] {
        &self.stream[self.at..]
    }

    /// Whether it stands between two chunks.
    pub fn between(&self) -> bool {
        self.at == 0 || self.ends.contains(&self.at)
    }
}

/// The script of a seed.
pub fn script(seed: u64) -> Vec<Op> {
    let rng = &mut Rng::new(seed);
    let shape = Shape {
        commands: rng.within(1, 14),
        damage: *rng.pick(&[0, 0, 5, 15]),
        noise: *rng.pick(&[0, 5, 30]),
        big: *rng.pick(&[0, 0, 0, 2, 10]),
    };
    let Stream { chunks, ids } = stream(rng, &shape);
    let mut ops = perform(rng, &chunks, ids);
    ops.insert(0, Op::Anew);
    ops
}

/// Feeds the chunks to a fresh receiver, with the console's calls.
pub fn perform(rng: &mut Rng, chunks: &[Vec<u8>], ids: Vec<Vec<u8>>) -> Vec<Op> {
    let cut = cut(rng);
    let mut maker = Maker::new(rng, ids);
    maker.perform(Line::new(chunks, cut));
    maker.ops
}

pub fn cut(rng: &mut Rng) -> Cut {
    match rng.weighted(&[40, 40, 15, 5]) {
        0 => Cut::Chunks,
        1 => Cut::Within(*rng.pick(&[2, 5, 12, 40, 200, 3000, 20_000])),
        2 => Cut::Escapes,
        _ => Cut::Within(1),
    }
}

/// The length of the next piece; `chunk` is what is left of the chunk it starts in.
pub fn piece_len(rng: &mut Rng, cut: Cut, rest: &[u8], chunk: usize) -> usize {
    let len = match cut {
        Cut::Chunks => chunk,
        Cut::Within(most) => rng.within(1, most),
        Cut::Escapes => {
            let after = |&b: &u8| b == 0x1b;
            let place = rest.iter().position(after).map_or(rest.len(), |place| place + 1);
            place + if rng.chance(20) { 1 } else { 0 }
        }
    };
    len.min(rest.len()).min(u16::MAX as usize)
}

/// The places where chunks end, in the joined stream.
fn ends(chunks: &[Vec<u8>]) -> Vec<usize> {
    let mut end = 0;
    chunks
        .iter()
        .map(|chunk| {
            end += chunk.len();
            end
        })
        .collect()
}

/// Whether a feed was refused as a call; those refused for their text consume it.
fn took_nothing(refusal: Option<Refusal>) -> bool {
    matches!(refusal, Some(Refusal::ShortBuffer | Refusal::AnswerOwed))
}

impl Maker<'_> {
    /// A console of some manner, with a fresh receiver.
    pub fn new(rng: &mut Rng, ids: Vec<Vec<u8>>) -> Maker<'_> {
        let (wrong, failures) = (*rng.pick(&[0, 2, 10, 30]), *rng.pick(&[0, 5, 25]));
        let (hesitates, looks) = (*rng.pick(&[0, 5, 50]), *rng.pick(&[0, 20, 80]));
        let (prompt, long) = (*rng.pick(&[50, 95, 95, 95]), *rng.pick(&[0, 0, 3, 15]));
        Maker {
            rng,
            console: Console::default(),
            ops: Vec::new(),
            bytes: 0,
            ids,
            wrong,
            failures,
            hesitates,
            looks,
            waiting: Vec::new(),
            named: Vec::new(),
            listing: Vec::new(),
            requested: false,
            prompt,
            long,
            spared: None,
            acted: false,
        }
    }

    fn perform(&mut self, mut line: Line) {
        while !line.rest().is_empty() && self.ops.len() < MOST_OPS && self.bytes < MOST_BYTES {
            if !self.go_on(&mut line) {
                return;
            }
        }
        for _ in 0..self.rng.weighted(&[60, 20, 20]) {
            self.stray();
        }
    }

    /// Feeds the next piece, with the calls before and after it. Answers whether it was fed.
    pub fn go_on(&mut self, line: &mut Line) -> bool {
        if self.rng.chance(self.wrong) {
            self.stray();
        }
        self.list_some();
        let chunk = line.ends.iter().find(|&&end| end > line.at).map_or(0, |end| end - line.at);
        let len = piece_len(self.rng, line.cut, line.rest(), chunk);
        let Some(answer) = self.add(Op::Feed(line.rest()[..len].to_vec())) else {
            return false;
        };
        // What was not consumed is fed again, but not always.
        let again = took_nothing(answer.refusal) || self.rng.chance(98);
        line.at += if again { answer.consumed } else { len };
        self.look(&answer);
        if self.rng.chance(30) {
            self.text(&answer);
        }
        self.react(&answer);
        self.look(&answer);
        true
    }

    /// Makes an operation, unless it would be an act of the session that is spared.
    pub fn add(&mut self, op: Op) -> Option<Answer> {
        let acts = |spared: &Watch| spared.clone().act_of(&op, &mut self.console.clone()).is_some();
        if self.spared.as_ref().is_some_and(acts) {
            return None;
        }
        self.make(op)
    }

    /// Makes an operation.
    pub fn make(&mut self, op: Op) -> Option<Answer> {
        let answer = self.console.apply(&op);
        if let (Some(spared), Some(answer)) = (&mut self.spared, &answer) {
            self.acted = spared.act(&op, answer).is_some();
        }
        self.bytes += encode(std::slice::from_ref(&op)).len();
        self.ops.push(op);
        answer
    }

    /// The text of the report; sometimes with a carry that is lent about as long as the text in it.
    fn text(&mut self, report: &Answer) {
        match report.text {
            Place::Carry { len } if self.rng.chance(15) => {
                let len = *self.rng.pick(&[0, len - 1, len - 1, len, len + 1]);
                self.add(Op::Lend(Buffer::Carry, len as u16));
                self.add(Op::Text);
                self.add(Op::Lend(Buffer::Carry, 8256));
            }
            _ => {
                self.add(Op::Text);
            }
        }
    }

    /// The numbers of a session, most often of one that is present; rarely where nothing was told before.
    fn look(&mut self, report: &Answer) {
        let told = report.told != Told::Nothing || self.rng.chance(5);
        if !told || !self.rng.chance(self.looks) {
            return;
        }
        let present = |id: &&Vec<u8>| self.console.numbers(id).is_some();
        let present: Vec<Vec<u8>> = self.ids.iter().filter(present).cloned().collect();
        let any = present.is_empty() || self.rng.chance(20);
        let id = if any { self.any_id() } else { self.rng.pick(&present).clone() };
        self.add(Op::Numbers(id));
    }

    /// Answers a session that was asked.
    fn decide(&mut self, id: Vec<u8>) {
        let op = match self.rng.weighted(&[90, 7, 3]) {
            0 => Op::Allow(id.clone()),
            1 => Op::Deny(id.clone()),
            _ => Op::Drop(id.clone()),
        };
        let allows = matches!(op, Op::Allow(_));
        let taken = self.add(op).is_some_and(|answer| answer.refusal.is_none());
        if allows && taken && self.named.contains(&id) {
            self.named.retain(|named| *named != id);
            self.listing.push(id);
        }
    }

    /// Answers one of the sessions that were left asked, now and then.
    fn decide_late(&mut self) {
        if !self.waiting.is_empty() && self.rng.chance(40) {
            let place = self.rng.below(self.waiting.len());
            let id = self.waiting.swap_remove(place);
            self.decide(id);
        }
    }

    /// What a console does after a report.
    pub fn react(&mut self, answer: &Answer) {
        match answer.told {
            Told::Asked(id) => self.asked(id.bytes().to_vec()),
            Told::LastPath { id, .. } => {
                self.named.push(id.bytes().to_vec());
                self.asked(id.bytes().to_vec());
            }
            Told::Open | Told::Write { .. } | Told::Commit | Told::Request { .. } => {
                self.requested = matches!(answer.told, Told::Request { .. });
                self.decide_late();
                // Sometimes another call comes first, or a feed that meets refusal 10.
                if self.rng.chance(self.wrong) {
                    self.stray();
                } else if !self.rng.chance(3) {
                    self.settle();
                }
            }
            _ => self.repair(answer.refusal),
        }
    }

    /// Answers a session at once, or leaves it asked.
    fn asked(&mut self, id: Vec<u8>) {
        if self.rng.chance(self.hesitates) {
            self.waiting.push(id);
        } else {
            self.decide(id);
        }
    }

    /// Answers the ask; sometimes first with a reply buffer that is too short, which leaves it owed.
    pub fn settle(&mut self) {
        if self.requested {
            return self.serve();
        }
        if self.rng.chance(self.wrong / 2) {
            self.add(Op::Lend(Buffer::Reply, 123));
            self.answer();
            self.add(Op::Lend(Buffer::Reply, 192));
        }
        self.answer();
    }

    fn answer(&mut self) {
        let op = if self.rng.chance(self.failures) {
            Op::Failed(self.rng.within(1, 4) as u8)
        } else {
            Op::Done
        };
        self.add(op);
    }

    /// After refusal 9 or 10: makes the next feed possible, most of the time.
    fn repair(&mut self, refusal: Option<Refusal>) {
        match refusal {
            Some(Refusal::ShortBuffer) if self.rng.chance(70) => {
                self.add(Op::Lend(Buffer::Carry, 8256));
                self.add(Op::Lend(Buffer::Scratch, 6208));
                self.add(Op::Lend(Buffer::Reply, 192));
            }
            Some(Refusal::AnswerOwed) if self.rng.chance(85) => self.settle(),
            _ => {}
        }
    }

    pub fn any_id(&mut self) -> Vec<u8> {
        let mut id = self.rng.pick(&self.ids).clone();
        match self.rng.weighted(&[80, 5, 5, 5, 5]) {
            0 => {}
            1 => id.push(*self.rng.pick(b"m\0")),
            2 => id.clear(),
            3 => id = vec![b'i'; 33 + self.rng.below(223)],
            _ => id = b"\x00!\xff".to_vec(),
        }
        id
    }

    /// A call that need not fit.
    pub fn stray(&mut self) {
        let op = match self.rng.below(18) {
            0 | 1 => Op::Allow(self.any_id()),
            2 => Op::Deny(self.any_id()),
            3 => Op::Drop(self.any_id()),
            4 | 5 => Op::Done,
            6 => Op::Failed(self.rng.within(1, 4) as u8),
            7 => Op::Text,
            8 => Op::Feed(Vec::new()),
            9 => Op::Numbers(self.any_id()),
            10..=13 => self.stray_supply(),
            _ => self.lend(),
        };
        self.add(op);
    }

    fn lend(&mut self) -> Op {
        let (buffer, limit) = *self.rng.pick(&[
            (Buffer::Carry, 8192),
            (Buffer::Scratch, 6144),
            (Buffer::Reply, 124),
            (Buffer::Out, 8196),
        ]);
        let len = match self.rng.below(6) {
            0 => limit - 1,
            1 => limit,
            2 => limit + 1,
            3 => self.rng.below(limit as usize) as u16,
            4 => 0,
            _ => u16::MAX,
        };
        Op::Lend(buffer, len)
    }
}
