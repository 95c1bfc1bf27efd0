//! Generated scripts for a sender: a session's calls, right and wrong ones, with replies heard in pieces.
//!
//! The reference runs along, so that most calls fit and most replies speak of what was written.

use crate::fields::{cast, random_bytes, safe, Fields};
use crate::framing::noise;
use crate::mutate::mutate;
use crate::names;
use crate::rng::Rng;
use crate::scripts::{cut, piece_len, Cut};
use crate::sender_replies::{self as replies, near, Topic};
use crate::streams::{emit, Shape};
use reference::receiver::{Place, Refusal};
use reference::sender::console::{Answer, Console};
use reference::sender::script::{Buffer, Op};
use reference::sender::{FileStage, Heard, Stage};

/// A script stops after so many operations or bytes.
const MOST_OPS: usize = 200;
const MOST_BYTES: usize = 20_000;

/// How a session goes; numbers are in a hundred.
struct Manner {
    /// Calls that need not fit.
    wrong: usize,
    /// Replies that are not the right ones.
    odd: usize,
    /// Commands without a reply.
    unanswered: usize,
    /// Whether every file is short, so that there is no room left for one.
    many: bool,
    /// Replies that are heard before the next call.
    prompt: usize,
    shape: Shape,
    cut: Cut,
}

struct Maker<'r> {
    rng: &'r mut Rng,
    manner: Manner,
    console: Console,
    ops: Vec<Op>,
    bytes: usize,
    /// Replies that are not heard yet.
    line: Vec<u8>,
    topic: Topic,
}

/// The script of a seed.
pub fn sender_script(seed: u64) -> Vec<Op> {
    let rng = &mut Rng::new(seed ^ 0x7365_6e64);
    let manner = manner(rng);
    let id = cast(rng, 1).remove(0);
    let (fid, fids) = (b"a".to_vec(), Vec::new());
    let topic = Topic { id, fid, fids, sent: 0, declared: 0, piece: 0 };
    let (console, ops, line) = (Console::default(), Vec::new(), Vec::new());
    let mut maker = Maker { rng, manner, console, ops, bytes: 0, line, topic };
    maker.add(Op::Anew);
    maker.perform();
    maker.ops
}

fn manner(rng: &mut Rng) -> Manner {
    let shape = Shape {
        commands: 0,
        damage: *rng.pick(&[0, 0, 5, 30]),
        noise: *rng.pick(&[0, 5, 30]),
        big: *rng.pick(&[0, 0, 0, 5, 20]),
    };
    Manner {
        wrong: *rng.pick(&[0, 2, 10, 30]),
        odd: *rng.pick(&[0, 5, 20, 60]),
        unanswered: *rng.pick(&[0, 0, 10, 90]),
        many: rng.chance(12),
        prompt: *rng.pick(&[100, 70, 20]),
        shape,
        cut: cut(rng),
    }
}

impl Maker<'_> {
    fn perform(&mut self) {
        while self.ops.len() < MOST_OPS && self.bytes < MOST_BYTES {
            if self.rng.chance(self.manner.wrong) {
                self.stray();
            }
            if !self.line.is_empty() && self.rng.chance(self.manner.prompt) {
                self.hear();
            } else if !self.step() {
                break;
            }
        }
        for _ in 0..40 {
            if !self.line.is_empty() {
                self.hear();
            }
        }
        self.stray();
    }

    /// The next call that fits; where none does, a reply or the script's end.
    fn step(&mut self) -> bool {
        let sender = self.console.sender();
        let current = sender.files().last().map(|file| file.stage);
        let op = match (sender.stage(), current) {
            // A reply that is heard, or begun, before there is a session.
            (Stage::Fresh, _) if self.line.is_empty() && self.rng.chance(20) => {
                self.reply("send");
                return true;
            }
            (Stage::Fresh, _) if self.rng.chance(15) => Op::Send(self.any_id()),
            (Stage::Fresh, _) => Op::Send(self.topic.id.clone()),
            (Stage::Open, Some(FileStage::Sending)) => self.piece(),
            (Stage::Open, _) if self.ends() => Op::Finish,
            (Stage::Open, _) => self.file(),
            _ if self.rng.chance(40) => return false,
            _ => {
                self.reply("");
                return true;
            }
        };
        self.call(op);
        true
    }

    fn ends(&mut self) -> bool {
        let count = self.console.sender().files().len();
        let likely = if self.manner.many { 0 } else { 6 * count.max(1) };
        self.rng.chance(likely) || count == 32 && self.rng.chance(60)
    }

    /// Makes a call that writes. Replies to what it wrote follow; a buffer that is too short is mended.
    fn call(&mut self, op: Op) {
        let action = action(&op);
        let Some(Answer::Written(written)) = self.add(op.clone()) else {
            return;
        };
        if let Err(refusal) = written {
            return self.mend(refusal);
        }
        match op {
            Op::Send(id) => self.topic.id = id,
            Op::File { fid, size, .. } => {
                self.topic.fids.push(fid.clone());
                (self.topic.fid, self.topic.declared) = (fid, size);
            }
            Op::Piece(bytes) | Op::Last(bytes) => self.topic.piece = bytes.len(),
            _ => {}
        }
        self.topic.sent = self.console.sender().files().last().map_or(0, |file| file.sent);
        if self.rng.chance(3) {
            let echo = self.console.frame(&written).to_vec();
            self.line.extend(echo);
        }
        if !self.rng.chance(self.manner.unanswered) || action == "send" {
            self.reply(action);
        }
    }

    /// Puts a reply to a command of this action on the line, or another one.
    fn reply(&mut self, action: &str) {
        let right = replies::right(&self.topic, action);
        let fields = match right {
            Some(fields) if !self.rng.chance(self.manner.odd) => fields,
            _ if self.rng.chance(8) => replies::other_action(self.rng, &self.topic),
            _ => replies::any(self.rng, &self.topic),
        };
        let mut chunks = Vec::new();
        let fields = self.lengthened(fields);
        emit(self.rng, &self.manner.shape, fields, &mut chunks);
        let mut bytes = chunks.concat();
        if self.rng.chance(self.manner.shape.damage / 3) {
            mutate(self.rng, &mut bytes);
        }
        self.line.extend(bytes);
    }

    /// Rarely a text of about 8,192 bytes.
    fn lengthened(&mut self, fields: Fields) -> Fields {
        if !self.rng.chance(self.manner.shape.big / 5) {
            return fields;
        }
        let len = self.rng.within(8188, 8196) - fields.text().len() - ";xx=".len();
        fields.with("xx", &vec![b'A'; len])
    }

    fn hear(&mut self) {
        let len = piece_len(self.rng, self.manner.cut, &self.line, self.line.len());
        let piece = self.line[..len].to_vec();
        let Some(Answer::Heard(heard)) = self.add(Op::Hear(piece)) else {
            return;
        };
        let short = heard.refusal == Some(Refusal::ShortBuffer);
        // What was not consumed is heard again, but not always.
        let gone = if short || self.rng.chance(98) { heard.consumed } else { len };
        self.line.drain(..gone);
        if self.rng.chance(25) {
            self.text(&heard);
        }
        if short {
            self.mend(Refusal::ShortBuffer);
        }
    }

    /// The text of the report; sometimes with a carry that is lent about as long as the text in it.
    fn text(&mut self, report: &Heard) {
        match report.text {
            Place::Carry { len } if self.rng.chance(15) => {
                let len = *self.rng.pick(&[0, len - 1, len, len + 1]);
                self.add(Op::Lend(Buffer::Carry, len as u16));
                self.add(Op::Text);
                self.add(Op::Lend(Buffer::Carry, 8256));
            }
            _ => {
                self.add(Op::Text);
            }
        }
    }

    /// After refusal 9: lends the buffers whole, most of the time.
    fn mend(&mut self, refusal: Refusal) {
        if refusal == Refusal::ShortBuffer && self.rng.chance(70) {
            self.add(Op::Lend(Buffer::Out, 8260));
            self.add(Op::Lend(Buffer::Carry, 8256));
            self.add(Op::Lend(Buffer::Scratch, 6208));
        }
    }

    fn add(&mut self, op: Op) -> Option<Answer> {
        let answer = self.console.apply(&op);
        self.bytes += match &op {
            Op::Piece(bytes) | Op::Last(bytes) | Op::Hear(bytes) => bytes.len() + 3,
            Op::File { name, .. } => name.len() + 16,
            _ => 3,
        };
        self.ops.push(op);
        answer
    }

    /// A call that need not fit.
    fn stray(&mut self) {
        let op = match self.rng.below(16) {
            0 | 1 => Op::Send(self.any_id()),
            2..=4 => self.file(),
            5 | 6 => self.piece(),
            7 => Op::Finish,
            8 => Op::Text,
            9 => Op::Hear(Vec::new()),
            10 => Op::Hear(noise(self.rng)),
            11 => return self.reply(""),
            _ => return self.lend(),
        };
        match op {
            Op::Text | Op::Hear(_) => {
                self.add(op);
            }
            op => self.call(op),
        }
    }

    /// About half of them can be read.
    fn any_id(&mut self) -> Vec<u8> {
        let len = *self.rng.pick(&[0, 1, 2, 31, 32, 33, 34, 255]);
        let mut id = safe(self.rng, len);
        if len > 0 && self.rng.chance(25) {
            let place = self.rng.below(len);
            id[place] = *self.rng.pick(b";! =\x1b\x00\xff*[");
        }
        id
    }

    fn file(&mut self) -> Op {
        let fid = match self.rng.weighted(&[70, 8, 8, 5, 2]) {
            1 if !self.topic.fids.is_empty() => self.rng.id(&self.topic.fids).to_vec(),
            2 => near(self.rng, &self.topic.fid),
            3 => self.any_id(),
            4 => Vec::new(),
            _ => (1 + self.topic.fids.len()).to_string().into_bytes(),
        };
        let name = self.name(fid.len());
        Op::File { fid, name, size: self.size() }
    }

    /// Any bytes; sometimes so many that the text is about as long as it may be.
    fn name(&mut self, fid: usize) -> Vec<u8> {
        if self.manner.many || !self.rng.chance(self.manner.shape.big / 2) {
            return if self.rng.chance(80) { names::good(self.rng) } else { names::name(self.rng) };
        }
        let before = "5113;ac=file;id=;fid=;n=".len() + self.topic.id.len() + fid;
        let most = (8192 - before) / 4 * 3;
        let len = self.rng.within(most - 9, most + 3);
        random_bytes(self.rng, len)
    }

    fn size(&mut self) -> u64 {
        match self.rng.weighted(&[50, 30, 10, 4, 6]) {
            0 => 0,
            1 => self.rng.below(30) as u64,
            2 => *self.rng.pick(&[1, 9, 10, 4096, 1 << 40, i64::MAX as u64 - 1, i64::MAX as u64]),
            3 => *self.rng.pick(&[1 << 63, (1 << 63) + 1, u64::MAX]),
            _ => self.rng.number() >> self.rng.below(64),
        }
    }

    fn piece(&mut self) -> Op {
        let len = match self.rng.weighted(&[15, 60, 20]) {
            _ if self.rng.chance(self.manner.shape.big) => self.rng.within(4093, 4098),
            0 => 0,
            1 => self.rng.within(1, 9),
            _ => self.rng.within(10, 300),
        };
        let bytes = random_bytes(self.rng, if self.manner.many { len % 4 } else { len });
        if self.rng.chance(if self.manner.many { 95 } else { 40 }) {
            Op::Last(bytes)
        } else {
            Op::Piece(bytes)
        }
    }

    fn lend(&mut self) {
        let (buffer, limit) =
            *self.rng.pick(&[(Buffer::Out, 8196), (Buffer::Carry, 8192), (Buffer::Scratch, 6144)]);
        let len = match self.rng.below(6) {
            0 | 1 => limit - 1,
            2 => limit,
            3 => self.rng.below(limit as usize) as u16,
            4 => 0,
            _ => u16::MAX,
        };
        self.add(Op::Lend(buffer, len));
    }
}

/// The action of the command that a call writes.
fn action(op: &Op) -> &'static str {
    match op {
        Op::Send(_) => "send",
        Op::File { .. } => "file",
        Op::Piece(_) => "data",
        Op::Last(_) => "end_data",
        _ => "",
    }
}

#[cfg(test)]
mod tests {
    use super::*;
    use crate::judge::SENDER;
    use crate::sender_coverage::SenderCoverage;
    use reference::sender::script::encode;

    const SEEDS: u64 = 300;

    /// Without the special scripts.
    #[test]
    fn everything_comes_up() {
        let mut coverage = SenderCoverage::default();
        for seed in 0..SEEDS {
            coverage.script(&SENDER.expected(&encode(&sender_script(seed))));
        }
        assert_eq!(coverage.missing(), Vec::<String>::new());
    }
}
