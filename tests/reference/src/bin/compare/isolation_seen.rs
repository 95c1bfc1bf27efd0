//! Order 14: what one session sees in an output. Places in the scratch, sums and bytes consumed are not part of it.

use crate::coverage::unhex;
use crate::isolation_acts::{moments, values, Listener, Moment};
use reference::script::Op;

/// A script, the places of the session's own operations in it, and what the reference makes of it.
pub struct Script {
    pub ops: Vec<Op>,
    pub own: Vec<usize>,
    pub moments: Vec<Moment>,
}

/// Whether an operation prints a line.
fn prints(op: &Op) -> bool {
    !matches!(op, Op::Anew | Op::Lend(..))
}

impl Script {
    /// A script of which every act is the session's own.
    pub fn new(id: &[u8], ops: Vec<Op>) -> Script {
        let moments = moments(id, &ops);
        let own = (0..ops.len()).filter(|&at| moments[at].act.is_some()).collect();
        Script { ops, own, moments }
    }

    /// Whether an operation is the session's own, or the look at it behind one.
    pub fn is_own(&self, at: usize) -> bool {
        let looks =
            matches!(self.ops[at], Op::Numbers(_)) && at > 0 && self.own.contains(&(at - 1));
        looks || self.own.contains(&at)
    }

    /// How many lines it prints.
    pub fn lines(&self) -> usize {
        self.ops.iter().filter(|op| prints(op)).count()
    }

    /// What the session sees in an output: the lines of its own operations and of the look behind each, and of any other that has a
    /// reply in its name.
    pub fn seen(&self, id: &[u8], output: &[u8]) -> Vec<String> {
        let text = String::from_utf8_lossy(output);
        let mut lines = text.lines();
        let mut seen = Vec::new();
        for (at, _) in self.ops.iter().enumerate().filter(|(_, op)| prints(op)) {
            let line = lines.next().unwrap_or("(no line)");
            if self.is_own(at) || names(line, id) {
                seen.push(shown(line, &self.moments[at]));
            }
        }
        seen
    }
}

/// Whether the reply or frame of a line has a command with this id.
fn names(line: &str, id: &[u8]) -> bool {
    let reply = line.split(' ').nth(4).unwrap_or("-");
    let commands = Listener::default().hear(&unhex(reply.as_bytes()));
    commands.iter().any(|text| values(text).is_some_and(|of| of.id == id))
}

/// Operation, refusal, what is told, and the reply or frame.
fn shown(line: &str, moment: &Moment) -> String {
    match line.split(' ').collect::<Vec<&str>>()[..] {
        [op, refusal, _, told, reply, _, scratch, ..] => {
            format!("{op} {refusal} {} {reply}", told_without_place(told, scratch, moment))
        }
        _ => line.into(),
    }
}

/// What is told, a part or a name by its bytes: those at its place in the reference's scratch. An output has only the scratch's sum; if
/// that is another one, the bytes may be others, and how far it is off stands for them.
fn told_without_place(told: &str, sum: &str, moment: &Moment) -> String {
    let [word, start, len] = told.split(':').collect::<Vec<&str>>()[..] else {
        return told.into();
    };
    let (Ok(start), Ok(len)) = (start.parse::<usize>(), len.parse::<usize>()) else {
        return told.into();
    };
    let Some((scratch, right)) = &moment.scratch else {
        return format!("{word}:{len}:?");
    };
    let bytes = scratch.get(start..start.saturating_add(len)).unwrap_or_default();
    let off = sum.parse::<u64>().map_or(0, |sum| (sum + 65_521 - right) % 65_521);
    let mark = if off == 0 { String::new() } else { format!("?{off}") };
    format!("{word}:{len}:{}{mark}", bytes.escape_ascii())
}

/// The first thing that is not the same.
pub fn difference(one: &[String], other: &[String]) -> Option<String> {
    let at = (0..one.len().max(other.len())).find(|&at| one.get(at) != other.get(at))?;
    let shown = |seen: &[String]| seen.get(at).map_or("nothing".into(), |line| short(line));
    Some(format!("{} in one, {} in the other", shown(one), shown(other)))
}

/// So much of a line as one can read.
fn short(line: &str) -> String {
    let most = line.char_indices().nth(120).map_or(line.len(), |(at, _)| at);
    format!("`{}`", &line[..most])
}

#[cfg(test)]
mod tests {
    use super::*;
    use crate::framing::framed;
    use reference::console;
    use reference::script::encode;

    fn script(texts: &[&str]) -> Script {
        let feed = |text: &&str| Op::Feed(framed(text.as_bytes()));
        let mut ops: Vec<Op> = texts.iter().map(feed).collect();
        ops.insert(1, Op::Allow(b"m".to_vec()));
        ops.insert(3, Op::Done);
        Script::new(b"m", ops)
    }

    fn output(script: &Script) -> Vec<u8> {
        let mut out = Vec::new();
        console::run(&encode(&script.ops), &mut out);
        out
    }

    const SEND: &str = "5113;ac=send;id=m";
    const FILE: &str = "5113;ac=file;id=m;fid=a;n=L256";

    /// The same part behind another value: its place is another, its bytes are the same.
    #[test]
    fn a_part_is_told_by_its_bytes() {
        let one = script(&[SEND, FILE, "5113;ac=data;id=m;fid=a;d=YWJj;st=AAAA"]);
        let other = script(&[SEND, FILE, "5113;ac=data;id=m;fid=a;st=AAAA;d=YWJj"]);
        let (first, second) = (output(&one), output(&other));
        assert_ne!(first, second);
        let seen = one.seen(b"m", &first);
        assert_eq!(seen.last().unwrap(), "f 0 write:3:abc -");
        assert_eq!(difference(&seen, &other.seen(b"m", &second)), None);
        let third = script(&[SEND, FILE, "5113;ac=data;id=m;fid=a;d=YWJi;st=AAAA"]);
        assert!(difference(&seen, &third.seen(b"m", &output(&third))).is_some());
    }

    /// An output whose scratch has other bytes at the place told, by its sum.
    #[test]
    fn another_sum_of_the_scratch_is_seen() {
        let one = script(&[SEND, FILE, "5113;ac=data;id=m;fid=a;d=YWJj"]);
        let first = String::from_utf8(output(&one)).unwrap();
        let other = first.replacen(" write:0:3 - 12805 4826 ", " write:0:3 - 12805 4827 ", 1);
        let (seen, changed) = (one.seen(b"m", first.as_bytes()), one.seen(b"m", other.as_bytes()));
        assert!(difference(&seen, &changed).is_some());
    }

    #[test]
    fn a_reply_in_its_name_is_seen_at_any_call() {
        let line =
            "a 0 0 none 1b5d353131333b61633d7374617475733b69643d6d3b73743d5430733d1b5c 1 2 3";
        assert!(names(line, b"m"));
        assert!(!names(line, b"mm"));
        assert!(!names("y none", b"m"));
        assert!(!names("a 0 0 none - 1 2 3", b"m"));
    }
}
