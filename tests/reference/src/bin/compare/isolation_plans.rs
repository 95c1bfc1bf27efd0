//! Order 14: what one session does, made alone, and its commands written otherwise with the same values.

use crate::fields::{cast, Fields};
use crate::isolation_acts::{moments, values, Act};
use crate::rng::Rng;
use crate::scripts::perform;
use crate::streams::{stream_of, Shape};

/// So many acts, of so many bytes in all.
const MOST_ACTS: usize = 90;
const MOST_BYTES: usize = 10_000;
/// Plans are made anew until one has a few acts.
const TRIES: usize = 6;

/// What the session with this id does, in a run of its own.
pub fn plan(rng: &mut Rng, id: &[u8]) -> Vec<Act> {
    let mut plan = Vec::new();
    for _ in 0..TRIES {
        plan = some_acts(rng, id);
        if plan.len() > 2 {
            break;
        }
    }
    plan
}

fn some_acts(rng: &mut Rng, id: &[u8]) -> Vec<Act> {
    let ids = [id.to_vec()];
    let mut chunks = Vec::new();
    // Now and then it begins again.
    for _ in 0..rng.weighted(&[0, 75, 25]) {
        let shape = Shape {
            commands: rng.within(2, 9),
            damage: 0,
            noise: 0,
            big: *rng.pick(&[0, 0, 0, 3]),
        };
        chunks.extend(stream_of(rng, &shape, &ids));
    }
    chunks.retain(|chunk| chunk.len() < MOST_BYTES);
    let ops = perform(rng, &chunks, ids.to_vec());
    let acts = moments(id, &ops).into_iter().filter_map(|moment| moment.act);
    let mut room = MOST_BYTES;
    let fits = |act: &Act| {
        let len = match act {
            Act::Command(text) => text.len(),
            Act::Call(op) => reference::script::encode(std::slice::from_ref(op)).len(),
        };
        room = room.saturating_sub(len);
        room > 0
    };
    acts.take_while(fits).take(MOST_ACTS).collect()
}

/// The fields of a text that is a command.
fn fields(text: &[u8]) -> Fields {
    let parts = text.split(|&b| b == b';').skip(1).map(|part| {
        let at = part.iter().position(|&b| b == b'=').unwrap_or(part.len());
        let (key, value) = part.split_at(at);
        (String::from_utf8_lossy(key).into_owned(), value.get(1..).unwrap_or_default().to_vec())
    });
    Fields(parts.collect())
}

/// The same integer with zeros before it, up to 19 digits.
fn with_zeros(rng: &mut Rng, value: &[u8]) -> Vec<u8> {
    let (sign, digits) = value.split_at(usize::from(value.starts_with(b"-")));
    let zeros = rng.below(20usize.saturating_sub(digits.len()).max(1));
    [sign, &vec![b'0'; zeros], digits].concat()
}

/// Keys with the values that a command without them has.
const DEFAULTS: [(&str, &str); 13] = [
    ("q", "0"),
    ("zip", "none"),
    ("tt", "simple"),
    ("ft", "regular"),
    ("sz", "0"),
    ("mod", "-0"),
    ("prm", "000"),
    ("fid", ""),
    ("pr", ""),
    ("pw", ""),
    ("n", ""),
    ("st", ""),
    ("d", ""),
];

/// The text of a command with the same values: fields in another order, unknown keys, defaults written out, leading zeros.
pub fn rewritten(rng: &mut Rng, text: &[u8]) -> Vec<u8> {
    let mut fields = fields(text);
    for (key, value) in &mut fields.0 {
        match key.as_str() {
            "mod" | "prm" | "sz" if rng.chance(50) => *value = with_zeros(rng, value),
            "ac" if value.starts_with(b"finish") => {
                *value = rng.word(&["finish", "finished"]).into()
            }
            _ => {}
        }
    }
    for _ in 0..rng.weighted(&[30, 30, 20, 20]) {
        let (key, value) = *rng.pick(&DEFAULTS);
        if !fields.has(key) {
            fields = fields.with(key, value.as_bytes());
        }
        let unknown = *rng.pick(&["x", "AC", "id2", "_", "ID"]);
        fields = fields.with(unknown, rng.word(&["", "m", "send", "a=b, c ?!~", "000"]));
    }
    if rng.chance(70) {
        rng.shuffle(&mut fields.0);
    }
    let other = fields.text();
    // Too long, now and then.
    if values(&other) == values(text) {
        other
    } else {
        text.to_vec()
    }
}

/// Ids that are almost this one: the start of it, longer, in other letters, with another end.
fn likes(id: &[u8]) -> Vec<Vec<u8>> {
    let (last, start) = id.split_last().unwrap_or((&0, b""));
    let other = |b: u8| if b == b'a' { b'b' } else { b'a' };
    let case = |b: &u8| {
        if b.is_ascii_lowercase() {
            b.to_ascii_uppercase()
        } else {
            b.to_ascii_lowercase()
        }
    };
    let all = [
        start.to_vec(),
        [id, b"m"].concat(),
        [id, id].concat(),
        [id, b"0"].concat(),
        id.iter().map(case).collect(),
        [start, &[other(*last)]].concat(),
        id.iter().skip(1).copied().collect(),
    ];
    all.into_iter().filter(|like| !like.is_empty() && like.len() <= 32).collect()
}

/// The ids of other sessions, about half of them like this one.
pub fn others(rng: &mut Rng, id: &[u8]) -> Vec<Vec<u8>> {
    let mut near = likes(id);
    rng.shuffle(&mut near);
    near.truncate(rng.within(1, 4));
    let count = rng.within(4, 6);
    near.extend(cast(rng, count));
    near.retain(|other| other != id);
    near.sort();
    near.dedup();
    rng.shuffle(&mut near);
    near
}

/// Whether one id is the start of the other.
pub fn is_like(one: &[u8], other: &[u8]) -> bool {
    one != other && (one.starts_with(other) || other.starts_with(one))
}

#[cfg(test)]
mod tests {
    use super::*;

    /// Most are other texts, and all have the same values.
    #[test]
    fn rewritten_commands_have_the_same_values() {
        let rng = &mut Rng::new(1);
        let text = b"5113;ac=file;id=m;fid=a;sz=-7;mod=9223372036854775807;n=L256;x=a=b";
        let others = (0..200).filter(|_| {
            let other = rewritten(rng, text);
            assert_eq!(values(&other), values(text));
            other != text
        });
        assert!(others.count() > 150);
    }

    #[test]
    fn others_are_others() {
        let rng = &mut Rng::new(2);
        for id in [&b"m"[..], b"mm", &[b'x'; 32]] {
            let all: Vec<Vec<u8>> = (0..50).flat_map(|_| others(rng, id)).collect();
            assert!(all.iter().all(|other| other != id && (1..=32).contains(&other.len())));
            assert!(all.iter().any(|other| is_like(other, id)));
        }
    }

    /// Both kinds of sessions come, with most kinds of calls.
    #[test]
    fn plans_have_every_call() {
        let rng = &mut Rng::new(3);
        let acts: Vec<Act> = (0..400).flat_map(|_| plan(rng, b"m")).collect();
        for letter in b"adxkelghpzu" {
            let is = |act: &&Act| matches!(act, Act::Call(op) if op.letter() == *letter);
            assert!(acts.iter().any(|act| is(&act)), "{}", *letter as char);
        }
        let sends = acts.iter().filter(|act| act.begins()).count();
        assert!(sends > 400, "{sends}");
    }
}
