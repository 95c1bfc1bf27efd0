//! Order 14: what of a script is one session's. Its commands are found in the bytes consumed, not in what the answers report; calls are
//! its own by their id, answers by the ask told last. What is refused is nobody's.

use reference::console::Console;
use reference::receiver::command::{self, Action, FileType, Transmission};
use reference::receiver::{Answer, Id, Place, Told, SCRATCH, SESSIONS};
use reference::script::Op;

const ESCAPE: u8 = 0x1b;

#[derive(Clone, Copy, Default)]
enum Mode {
    #[default]
    Plain,
    Escape,
    Text,
    TextEscape,
}

/// Finds the commands in bytes that come in pieces, one byte at a time.
#[derive(Clone, Default)]
pub struct Listener {
    mode: Mode,
    text: Vec<u8>,
}

impl Listener {
    /// The texts that end here and are read without refusal.
    pub fn hear(&mut self, bytes: &[u8]) -> Vec<Vec<u8>> {
        let texts = bytes.iter().filter_map(|&byte| self.byte(byte));
        texts.filter(|text| values(text).is_some()).collect()
    }

    /// The text that this byte closes.
    fn byte(&mut self, byte: u8) -> Option<Vec<u8>> {
        self.mode = match (self.mode, byte) {
            (Mode::Plain, ESCAPE) => Mode::Escape,
            (Mode::Plain, _) => Mode::Plain,
            (Mode::Text, ESCAPE) => Mode::TextEscape,
            (Mode::Text, _) => {
                self.text.push(byte);
                Mode::Text
            }
            (Mode::TextEscape, b'\\') => {
                self.mode = Mode::Plain;
                return Some(std::mem::take(&mut self.text));
            }
            (_, ESCAPE) => Mode::Escape,
            (_, b']') => {
                self.text.clear();
                Mode::Text
            }
            _ => Mode::Plain,
        };
        None
    }
}

/// What a command says, wherever it stands in its text.
#[derive(Debug, PartialEq)]
pub struct Values {
    pub action: Option<Action>,
    kinds: (FileType, Transmission, u8),
    integers: [i64; 3],
    pub id: Vec<u8>,
    strings: [Vec<u8>; 3],
    decoded: [Vec<u8>; 3],
}

/// The values of a text that is a command.
pub fn values(text: &[u8]) -> Option<Values> {
    let mut scratch = [0; SCRATCH];
    let read = command::read(text, &mut scratch).ok()?;
    Some(Values {
        action: read.action,
        kinds: (read.file_type, read.transmission, read.quiet),
        integers: [read.modified, read.permissions, read.size],
        id: read.id.into(),
        strings: [read.fid, read.bypass, read.parent].map(<[u8]>::to_vec),
        decoded: [read.name, read.status, read.data].map(|place| scratch[place].to_vec()),
    })
}

/// One thing of a session: a command by its text, or a call.
#[derive(Clone, Debug)]
pub enum Act {
    Command(Vec<u8>),
    Call(Op),
}

/// Commands are the same if their values are: fields, keys and zeros may stand otherwise.
impl PartialEq for Act {
    fn eq(&self, other: &Act) -> bool {
        match (self, other) {
            (Act::Command(one), Act::Command(other)) => values(one) == values(other),
            (Act::Call(one), Act::Call(other)) => one == other,
            _ => false,
        }
    }
}

impl Act {
    /// Whether it is a send or a receive.
    pub fn begins(&self) -> bool {
        let action = match self {
            Act::Command(text) => values(text).and_then(|values| values.action),
            Act::Call(_) => None,
        };
        matches!(action, Some(Action::Send | Action::Receive))
    }
}

/// Whether the console is asked for something.
fn is_ask(told: &Told) -> bool {
    matches!(told, Told::Open | Told::Write { .. } | Told::Commit | Told::Request { .. })
}

/// Follows a run, and knows what in it is the session's.
#[derive(Clone)]
pub struct Watch {
    id: Vec<u8>,
    listener: Listener,
    /// Whether the ask told last came with a command of the session.
    asks: bool,
}

impl Watch {
    pub fn new(id: &[u8]) -> Watch {
        Watch { id: id.into(), listener: Listener::default(), asks: false }
    }

    /// Makes the call, and gives what it is for the session.
    pub fn act_of(&mut self, op: &Op, console: &mut Console) -> Option<Act> {
        let answer = console.apply(op)?;
        self.act(op, &answer)
    }

    /// What a call is for the session, by its answer.
    pub fn act(&mut self, op: &Op, answer: &Answer) -> Option<Act> {
        if let Op::Feed(piece) = op {
            let found = self.listener.hear(&piece[..answer.consumed]).pop();
            let own = found.filter(|text| values(text).is_some_and(|of| of.id == self.id));
            if is_ask(&answer.told) {
                self.asks = own.is_some();
            }
            return own.map(Act::Command);
        }
        (self.is_own(op) && answer.refusal.is_none()).then(|| Act::Call(op.clone()))
    }

    /// Whether a call is the session's but for its refusal: by its id, as an answer, or as a feed of a whole command.
    pub fn refused(&self, op: &Op, answer: &Answer) -> bool {
        let own = |text: &Vec<u8>| values(text).is_some_and(|of| of.id == self.id);
        let feeds = |piece: &[u8]| Listener::default().hear(piece).iter().any(own);
        match op {
            Op::Feed(piece) => answer.refusal.is_some() && answer.consumed == 0 && feeds(piece),
            _ => answer.refusal.is_some() && self.is_own(op),
        }
    }

    /// Whether a call is the session's, if it is not refused.
    fn is_own(&self, op: &Op) -> bool {
        match op {
            Op::Allow(id) | Op::Deny(id) | Op::Drop(id) => *id == self.id,
            Op::ListFailed { id, .. } | Op::Home { id, .. } => *id == self.id,
            Op::List(entry) => entry.id == self.id,
            Op::Done | Op::Failed(_) | Op::Unlisted | Op::Part(_) | Op::LastPart(_) => self.asks,
            _ => false,
        }
    }
}

/// One operation of a script as the reference makes it, and what it found.
pub struct Moment {
    pub act: Option<Act>,
    /// None of those that call nothing.
    pub answer: Option<Answer>,
    /// A call that is the session's but for its refusal.
    pub own_refused: bool,
    /// The sessions that were present before it, each with its place.
    pub present: Vec<(usize, Id)>,
    /// The scratch behind it and its sum, where something of the session was told with a place in it.
    pub scratch: Option<(Vec<u8>, u64)>,
}

impl Moment {
    /// The session's place before it.
    pub fn place(&self, id: &[u8]) -> Option<usize> {
        self.present.iter().find_map(|(place, of)| (of.bytes() == id).then_some(*place))
    }

    /// Whether it is a feed that found something to report.
    pub fn reports(&self) -> bool {
        let found = |answer: Answer| answer.text != Place::Nowhere || answer.refusal.is_some();
        self.answer.is_some_and(|answer| answer.consumed > 0 && found(answer))
    }

    /// The premise: a send or receive that finds its session absent finds a free place.
    fn met(&self, id: &[u8]) -> bool {
        let begins = self.act.as_ref().is_some_and(Act::begins);
        !begins || self.place(id).is_some() || self.present.len() < SESSIONS
    }
}

/// Whether every send or receive of the session that came while it was absent met a free place.
pub fn all_met(moments: &[Moment], id: &[u8]) -> bool {
    moments.iter().all(|moment| moment.met(id))
}

/// Whether something is told with a place in the scratch.
fn has_place(told: &Told) -> bool {
    matches!(
        told,
        Told::Write { .. } | Told::Path { .. } | Told::LastPath { .. } | Told::Request { .. }
    )
}

/// Runs a script with the reference.
pub fn moments(id: &[u8], ops: &[Op]) -> Vec<Moment> {
    let (mut console, mut watch) = (Console::default(), Watch::new(id));
    let moment = |op: &Op| {
        let present = console.receiver().present();
        let answer = console.apply(op);
        let own_refused = answer.is_some_and(|answer| watch.refused(op, &answer));
        let act = answer.as_ref().and_then(|answer| watch.act(op, answer));
        if *op == Op::Anew {
            watch = Watch::new(id);
        }
        let placed = act.is_some() && answer.is_some_and(|answer| has_place(&answer.told));
        let scratch = placed.then(|| {
            let (bytes, sum) = console.scratch();
            (bytes.to_vec(), sum)
        });
        Moment { own_refused, act, answer, present, scratch }
    };
    ops.iter().map(moment).collect()
}

#[cfg(test)]
mod tests {
    use super::*;
    use crate::framing::framed;
    use crate::scripts::script;

    #[test]
    fn commands_are_found_across_pieces() {
        let bytes = b"x\x1b]5113;ac=send;id=a\x1b]5113;ac=send;id=b\x1b\\\x1b]52;c\x1b\\\x1b\x1b]5113;ac=finish;id=c\x1b\\";
        for step in 1..20 {
            let mut listener = Listener::default();
            let found: Vec<Vec<u8>> =
                bytes.chunks(step).flat_map(|piece| listener.hear(piece)).collect();
            assert_eq!(found, [&b"5113;ac=send;id=b"[..], b"5113;ac=finish;id=c"]);
        }
    }

    /// The two look for frames in their own ways.
    #[test]
    fn the_listener_finds_what_the_receiver_reports() {
        let mut found = 0;
        for seed in 0..100 {
            let (mut console, mut listener) = (Console::default(), Listener::default());
            for op in script(seed) {
                let answer = console.apply(&op);
                if let (Op::Feed(piece), Some(answer)) = (&op, answer) {
                    let text = console.text().to_vec();
                    let reported: Vec<Vec<u8>> =
                        [text].into_iter().filter(|text| values(text).is_some()).collect();
                    let refused = answer.refusal.is_some();
                    let heard = listener.hear(&piece[..answer.consumed]);
                    assert_eq!(heard, if refused { vec![] } else { reported }, "{seed}");
                    found += heard.len();
                }
            }
        }
        assert!(found > 500, "{found}");
    }

    #[test]
    fn commands_are_the_same_by_their_values() {
        let command = |text: &str| Act::Command(text.into());
        let one = command("5113;ac=file;id=m;sz=7;n=L256");
        assert_eq!(one, command("5113;x=y;n=L256;sz=007;id=m;ac=file;q=0"));
        assert_ne!(one, command("5113;ac=file;id=m;sz=7;n=L256;q=1"));
        assert_ne!(one, Act::Call(Op::Done));
        assert_eq!(command("5113;ac=finish;id=m"), command("5113;ac=finished;id=m"));
    }

    /// The page's words: done is the session's where the ask told last came with its command; what is refused is nobody's.
    #[test]
    fn answers_go_to_the_ask_told_last() {
        let feed = |text: &str| Op::Feed(framed(text.as_bytes()));
        let allow = |id: &str| Op::Allow(id.into());
        let ops = [
            feed("5113;ac=send;id=k"),
            feed("5113;ac=send;id=m"),
            allow("k"),
            feed("5113;ac=finish;id=k"),
            allow("m"),
            feed("5113;ac=finish;id=m"),
            Op::Done,
            allow("m"),
            feed("5113;ac=finish;id=m"),
            Op::Done,
            Op::Done,
        ];
        let own: Vec<usize> = moments(b"m", &ops)
            .iter()
            .enumerate()
            .filter_map(|(at, moment)| moment.act.as_ref().map(|_| at))
            .collect();
        assert_eq!(own, [1, 4, 8, 9]);
    }
}
