//! A sender and a receiver of the reference over a line that delays and cuts: every file arrives whole (order 1, sentence 8).

use reference::receiver::{Receiver, Refusal, Told, CARRY, REPLY, SCRATCH};
use reference::sender::{FileStage, News, Sender, Stage, Written, OUT};

const PLANS: u64 = 150;
const MOST_TURNS: usize = 500_000;

/// Random numbers that are the same for the same seed: xorshift64.
struct Rng(u64);

impl Rng {
    fn below(&mut self, limit: usize) -> usize {
        self.0 ^= self.0 << 13;
        self.0 ^= self.0 >> 7;
        self.0 ^= self.0 << 17;
        (self.0 >> 16) as usize % limit
    }
}

enum Order {
    Send,
    File { fid: String, size: u64 },
    Piece { bytes: Vec<u8>, last: bool },
    Finish,
}

/// The orders of a plan and the contents of its files: 1 to 32 of them, a size of zero or a true one.
fn plan(rng: &mut Rng) -> (Vec<Order>, Vec<Vec<u8>>) {
    let (mut orders, mut contents) = (vec![Order::Send], Vec::new());
    let most = [1, 4, 32][rng.below(3)];
    for file in 0..1 + rng.below(most) {
        let pieces: Vec<Vec<u8>> = (0..1 + rng.below(4)).map(|_| piece(rng)).collect();
        let content = pieces.concat();
        let size = if rng.below(2) == 0 { 0 } else { content.len() as u64 };
        orders.push(Order::File { fid: file.to_string(), size });
        let last = pieces.len() - 1;
        let each = pieces.into_iter().enumerate();
        orders.extend(each.map(|(i, bytes)| Order::Piece { bytes, last: i == last }));
        contents.push(content);
    }
    orders.push(Order::Finish);
    orders.reverse();
    (orders, contents)
}

fn piece(rng: &mut Rng) -> Vec<u8> {
    let len = [0, 1, 2, 3, 50, 4096][rng.below(6)];
    (0..len).map(|_| rng.below(256) as u8).collect()
}

/// Both ends, the bytes on the way, and what the console has to answer.
struct Exchange {
    sender: Sender,
    receiver: Receiver,
    todo: Vec<Order>,
    there: Vec<u8>,
    back: Vec<u8>,
    carries: [Vec<u8>; 2],
    owed: Told,
    written: Vec<Vec<u8>>,
    committed: bool,
}

impl Exchange {
    fn new(todo: Vec<Order>) -> Self {
        Exchange {
            sender: Sender::default(),
            receiver: Receiver::default(),
            todo,
            there: vec![],
            back: vec![],
            carries: [vec![0; CARRY], vec![0; CARRY]],
            owed: Told::Nothing,
            written: vec![],
            committed: false,
        }
    }

    /// Writes the next order, if the sender is ready.
    fn write(&mut self) {
        let mut out = [0; OUT];
        let sender = &mut self.sender;
        let written: Written = match self.todo.last() {
            None => return,
            Some(Order::Send) => sender.send(b"m", &mut out),
            Some(Order::File { fid, size }) => sender.file(fid.as_bytes(), b"/nz", *size, &mut out),
            Some(Order::Piece { bytes, last }) => sender.piece(bytes, *last, &mut out),
            Some(Order::Finish) => sender.finish(&mut out),
        };
        match written {
            Ok(len) => {
                self.there.extend_from_slice(&out[..len]);
                self.todo.pop();
            }
            Err(refusal) => assert_eq!(refusal, Refusal::NotReady),
        }
    }

    fn feed(&mut self, len: usize) {
        let (mut scratch, mut reply) = ([0; SCRATCH], [0; REPLY]);
        let piece = self.there[..len.min(self.there.len())].to_vec();
        let answer = self.receiver.feed(&piece, &mut self.carries[0], &mut scratch, &mut reply);
        self.there.drain(..answer.consumed);
        self.back.extend_from_slice(&reply[..answer.reply]);
        match answer.told {
            Told::Nothing => assert!(matches!(answer.refusal, None | Some(Refusal::AnswerOwed))),
            Told::Asked(_) | Told::Commit => self.owed = answer.told,
            Told::Open => {
                self.written.push(vec![]);
                self.owed = Told::Open;
            }
            Told::Write { start, len, .. } => {
                let file = self.written.last_mut().unwrap();
                file.extend_from_slice(&scratch[start..start + len]);
                self.owed = answer.told;
            }
            other => panic!("{other:?}"),
        }
    }

    /// Allows or answers done what is owed.
    fn answer(&mut self) {
        let mut reply = [0; REPLY];
        let answer = match std::mem::take(&mut self.owed) {
            Told::Nothing => return,
            Told::Asked(id) => self.receiver.allow(id.bytes(), &mut reply),
            _ => self.receiver.done(&mut reply),
        };
        self.committed |= answer.told == Told::Committed;
        self.back.extend_from_slice(&reply[..answer.reply]);
    }

    fn hear(&mut self, len: usize) {
        let mut scratch = [0; SCRATCH];
        let piece = self.back[..len.min(self.back.len())].to_vec();
        let heard = self.sender.hear(&piece, &mut self.carries[1], &mut scratch);
        self.back.drain(..heard.consumed);
        assert_eq!(heard.refusal, None);
        assert!(matches!(heard.news, News::Nothing | News::Noted | News::Allowed), "{heard:?}");
    }

    fn at_rest(&self) -> bool {
        let line = self.there.is_empty() && self.back.is_empty();
        self.todo.is_empty() && line && self.owed == Told::Nothing
    }
}

#[test]
fn every_file_arrives_whole() {
    for seed in 1..=PLANS {
        let rng = &mut Rng(seed * 0x9e37_79b9);
        let (orders, contents) = plan(rng);
        let mut exchange = Exchange::new(orders);
        let longest = [30, 300, 9000][rng.below(3)];
        let mut turns = 0;
        while !exchange.at_rest() {
            let len = rng.below(longest);
            match rng.below(4) {
                0 => exchange.write(),
                1 => exchange.feed(len),
                2 => exchange.answer(),
                _ => exchange.hear(len),
            }
            turns += 1;
            assert!(turns < MOST_TURNS, "plan {seed} does not go on");
        }
        assert_eq!(exchange.written, contents, "plan {seed}");
        let closed = exchange.sender.files().iter().map(|file| (file.stage, file.sent));
        let whole = contents.iter().map(|content| (FileStage::Closed, content.len() as u64));
        assert!(closed.eq(whole), "plan {seed}");
        assert!(exchange.committed && exchange.sender.stage() == Stage::Finished);
    }
}
