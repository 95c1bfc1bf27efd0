//! Order 14: pairs of scripts in which one session does the same, with anything else between.

use crate::fields::cast;
use crate::framing::{framed, noise};
use crate::isolation_acts::{all_met, moments, Act, Watch};
use crate::isolation_plans::{others, plan, rewritten};
use crate::isolation_seen::Script;
use crate::rng::Rng;
use crate::scripts::{cut, piece_len, Cut, Line, Maker};
use reference::console::LONGEST_SCRIPT;
use reference::receiver::{Answer, SESSIONS};
use reference::script::{Buffer, Op};

/// Nothing more is put between once a script has so many bytes.
const MOST_BYTES: usize = 14_000;
/// A longer script is made anew, so that both go in one run.
const LONGEST: usize = LONGEST_SCRIPT / 2;
/// Pairs whose lists are not the same are made anew so often.
const TRIES: u64 = 20;

/// Two scripts with the same acts of the session with this id.
pub struct Pair {
    pub name: String,
    pub id: Vec<u8>,
    pub scripts: [Script; 2],
    /// Whether the premise holds in both, so that what the session sees must be the same.
    pub met: bool,
}

/// How much stands between in one script.
#[derive(Clone, Copy, PartialEq)]
enum Between {
    /// Nothing: the session is alone.
    Nothing,
    /// Anything; a place is made free where the session needs one.
    Anything,
    /// Anything, and the table is full where the session begins.
    Crowd,
}

/// The pair of a seed. None if no try gave the same acts in both.
pub fn pair(seed: u64) -> Option<Pair> {
    (0..TRIES).find_map(|attempt| attempted(seed, attempt))
}

fn attempted(seed: u64, attempt: u64) -> Option<Pair> {
    let rng = &mut Rng::new(seed.wrapping_mul(TRIES) + attempt);
    let id = cast(rng, 1).remove(0);
    let plan = plan(rng, &id);
    let betweens = match rng.weighted(&[25, 63, 12]) {
        0 => [Between::Anything, Between::Nothing],
        1 => [Between::Anything, Between::Anything],
        _ => [Between::Crowd, *rng.pick(&[Between::Anything, Between::Nothing, Between::Crowd])],
    };
    let [one, other] = betweens.map(|between| weave(rng, &id, &plan, between));
    let scripts = [one?, other?];
    let met = scripts.iter().all(|script| all_met(&script.moments, &id));
    let pair = Pair { name: seed.to_string(), id, scripts, met };
    // Noise may have become a command of the session, or have swallowed one.
    (!met || pair.has_acts(&plan)).then_some(pair)
}

impl Pair {
    /// Whether the acts of both scripts are these, where they should be.
    fn has_acts(&self, plan: &[Act]) -> bool {
        self.scripts.iter().all(|script| {
            let found: Vec<usize> = script.acts().map(|(at, _)| at).collect();
            found == script.own && script.acts().map(|(_, act)| act).eq(plan)
        })
    }

    /// Whether the acts of both are the same.
    pub fn same_acts(&self) -> bool {
        let [one, other] = &self.scripts;
        one.acts().map(|(_, act)| act).eq(other.acts().map(|(_, act)| act))
    }
}

impl Script {
    pub fn acts(&self) -> impl Iterator<Item = (usize, &Act)> {
        let moments = self.moments.iter().enumerate();
        moments.filter_map(|(at, moment)| Some((at, moment.act.as_ref()?)))
    }
}

/// A script in which the session does what is planned. None if a command of it got lost, or it is too long.
fn weave(rng: &mut Rng, id: &[u8], plan: &[Act], between: Between) -> Option<Script> {
    let ids = others(rng, id);
    let busy = if between == Between::Nothing { 0 } else { *rng.pick(&[1, 2, 2, 4]) };
    let mut maker = Maker::new(rng, ids.clone());
    maker.spared = Some(Watch::new(id));
    maker.make(Op::Anew);
    let mut weaver = Weaver { maker, id, ids, busy, between, line: Line::default(), own: vec![] };
    for act in plan {
        weaver.between(true);
        match act {
            Act::Command(text) => weaver.command(text)?,
            Act::Call(op) => weaver.call(op.clone()),
        }
        weaver.maker.make(Op::Numbers(id.into()));
    }
    weaver.between(true);
    let (ops, own) = (weaver.maker.ops, weaver.own);
    let moments = moments(id, &ops);
    (weaver.maker.bytes <= LONGEST).then_some(Script { ops, own, moments })
}

/// A script that is being made.
pub struct Weaver<'r> {
    pub maker: Maker<'r>,
    pub id: &'r [u8],
    /// Those of other sessions.
    pub ids: Vec<Vec<u8>>,
    busy: usize,
    between: Between,
    /// What others send.
    pub line: Line,
    /// The places of the session's own operations.
    own: Vec<usize>,
}

impl Weaver<'_> {
    /// Puts some things between, feeds among them or not.
    fn between(&mut self, feeds: bool) {
        let count = match self.busy {
            0 => 0,
            busy => busy * self.maker.rng.weighted(&[35, 35, 20, 10]),
        };
        for _ in 0..count {
            if self.maker.bytes < MOST_BYTES {
                self.something(feeds);
            }
        }
    }

    /// Lends every buffer whole, if one is not.
    pub fn lend_whole(&mut self) {
        for (buffer, len) in [
            (Buffer::Carry, 8256),
            (Buffer::Scratch, 6208),
            (Buffer::Reply, 192),
            (Buffer::Out, 8256),
        ] {
            let lends = |op: &&Op| matches!(op, Op::Lend(of, _) if *of == buffer);
            let latest = self.maker.ops.iter().rev().find(lends);
            if matches!(latest, Some(Op::Lend(_, lent)) if *lent < len) {
                self.maker.make(Op::Lend(buffer, len));
            }
        }
    }

    /// A call of the session itself.
    fn call(&mut self, op: Op) {
        self.lend_whole();
        self.own.push(self.maker.ops.len());
        self.maker.make(op);
    }

    /// A command of the session itself, in other words and pieces.
    fn command(&mut self, text: &[u8]) -> Option<()> {
        let plain = self.between == Between::Nothing;
        self.settle_others();
        self.make_room(text);
        self.lend_whole();
        let rng = &mut *self.maker.rng;
        let text = if plain || rng.chance(30) { text.to_vec() } else { rewritten(rng, text) };
        let mut bytes = framed(&text);
        if !plain && rng.chance(15) {
            bytes = [noise(rng), bytes].concat();
        }
        let cut = if plain { Cut::Chunks } else { cut(rng) };
        let mut at = 0;
        while at < bytes.len() {
            // Noise may have closed what another session began, so that an answer is owed.
            let answer = self.piece(&bytes[at..], cut).filter(|answer| answer.consumed > 0)?;
            at += answer.consumed.min(bytes.len() - at);
            if self.maker.acted {
                self.own.push(self.maker.ops.len() - 1);
                return Some(());
            }
            if !plain && self.maker.rng.chance(10) {
                self.between(false);
                self.lend_whole();
            }
        }
        None
    }

    /// Feeds a piece of a command; behind its end there may stand what others send.
    fn piece(&mut self, rest: &[u8], cut: Cut) -> Option<Answer> {
        let rng = &mut *self.maker.rng;
        let len = piece_len(rng, cut, rest, rest.len());
        let mut piece = rest[..len].to_vec();
        if len == rest.len() && self.between != Between::Nothing && rng.chance(15) {
            let behind = self.line.rest();
            piece.extend_from_slice(&behind[..behind.len().min(30)]);
        }
        self.maker.make(Op::Feed(piece))
    }

    /// Whatever another session asked for is answered, since a feed would be refused.
    fn settle_others(&mut self) {
        if !self.line.between() && self.maker.rng.chance(70) {
            // What is begun is most often brought to its end.
            for _ in 0..40 {
                if self.line.between() || !self.maker.go_on(&mut self.line) {
                    break;
                }
            }
        }
        for _ in 0..4 {
            if self.maker.console.receiver().owes().is_some() {
                self.lend_whole();
                self.maker.settle();
            }
        }
        if let Some(id) = self.maker.console.receiver().owes() {
            self.maker.add(Op::Drop(id.bytes().to_vec()));
        }
    }

    /// A free place if the session is to begin, or none.
    fn make_room(&mut self, text: &[u8]) {
        let absent = self.maker.console.numbers(self.id).is_none();
        if !absent || !Act::Command(text.to_vec()).begins() {
            return;
        }
        if self.between == Between::Crowd {
            self.fill();
            self.settle_others();
        } else if self.maker.console.receiver().present().len() == SESSIONS {
            let present = self.present();
            let id = self.maker.rng.pick(&present).clone();
            self.maker.add(Op::Drop(id));
        }
    }
}
