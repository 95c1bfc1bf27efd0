//! Faults of command texts: one for each rule of the reader, and some that only look like one.

use crate::bad_values;
use crate::fields::{safe, Fields, ACTIONS};
use crate::rng::Rng;

#[rustfmt::skip]
const KNOWN: [&str; 15] = [
    "ac", "zip", "ft", "tt", "id", "fid", "pw", "q", "mod", "prm", "sz", "n", "st", "pr", "d",
];

/// A text with a fault put into the command, or with several.
pub fn faulty(rng: &mut Rng, fields: Fields) -> Vec<u8> {
    match rng.below(18) {
        0 => repeated(rng, fields).text(),
        1 => bad_key(rng, fields),
        2 => empty_field(rng, &fields),
        3 => bad_byte(rng, fields.text()),
        4 => long_id(rng, fields).text(),
        5 => missing(rng, fields).text(),
        6 => bad_prefix(rng, fields.text()),
        7 => other_case(rng, fields).text(),
        8 => flipped(rng, fields.text()),
        9..=14 => bad_value(rng, fields).text(),
        _ => several(rng, fields),
    }
}

/// Two or three faults in one text, of which the first from the left is told.
fn several(rng: &mut Rng, fields: Fields) -> Vec<u8> {
    let fields = bad_value(rng, fields);
    let fields = if rng.chance(30) { long_id(rng, fields) } else { fields };
    match rng.below(9) {
        0 => missing(rng, fields).text(),
        1 => bad_key(rng, fields),
        2 => empty_field(rng, &fields),
        3 => repeated(rng, fields).text(),
        4 => long_id(rng, fields).text(),
        _ => bad_value(rng, fields).text(),
    }
}

fn bad_value(rng: &mut Rng, fields: Fields) -> Fields {
    let (key, value) = bad_values::any(rng);
    put(rng, fields, key, &value)
}

/// Sets a field: in its place if it stands, otherwise anywhere.
fn put(rng: &mut Rng, mut fields: Fields, key: &str, value: &[u8]) -> Fields {
    fields.0.retain(|(known, _)| known != key);
    let place = rng.below(fields.0.len() + 1);
    fields.0.insert(place, (key.into(), value.into()));
    fields
}

fn repeated(rng: &mut Rng, mut fields: Fields) -> Fields {
    let (key, mut value) = rng.pick(&fields.0).clone();
    if rng.chance(40) {
        value = rng.word(&["", "0", "!", "x"]).to_vec();
    }
    let place = rng.below(fields.0.len() + 1);
    fields.0.insert(place, (key, value));
    fields
}

fn bad_key(rng: &mut Rng, mut fields: Fields) -> Vec<u8> {
    let place = rng.below(fields.0.len());
    let key = &mut fields.0[place].0;
    let at = rng.below(key.len() + 1);
    match rng.below(4) {
        0 => key.insert(at, *rng.pick(&['-', ' ', '.', '!', '~', ':', '@', '[', '`', '{', '/'])),
        1 => key.clear(),
        2 => {
            // The field without its `=`.
            let word = key.clone();
            let text = fields.text();
            let from = word.len() + 1;
            return remove_equals(text, &word, from);
        }
        _ => key.push(' '),
    }
    fields.text()
}

fn remove_equals(mut text: Vec<u8>, key: &str, len: usize) -> Vec<u8> {
    let wanted = [key.as_bytes(), b"="].concat();
    if let Some(place) = text.windows(len).position(|part| part == wanted) {
        text.remove(place + len - 1);
    }
    text
}

fn empty_field(rng: &mut Rng, fields: &Fields) -> Vec<u8> {
    let mut text = fields.text();
    match rng.below(4) {
        0 => text.push(b';'),
        1 => text.insert(5, b';'),
        2 => text.truncate(5),
        _ => {
            let places: Vec<usize> = (0..text.len()).filter(|&i| text[i] == b';').collect();
            text.insert(*rng.pick(&places), b';');
        }
    }
    text
}

fn bad_byte(rng: &mut Rng, mut text: Vec<u8>) -> Vec<u8> {
    let byte = *rng.pick(&[0x00, 0x01, 0x07, 0x0a, 0x1a, 0x1c, 0x1f, 0x7f, 0x80, 0x9c, 0x9d, 0xff]);
    let place = rng.within(5.min(text.len()), text.len());
    text.insert(place, byte);
    text
}

fn long_id(rng: &mut Rng, fields: Fields) -> Fields {
    let key = *rng.pick(&["id", "fid", "pr"]);
    let len = *rng.pick(&[32, 33, 33, 34, 64, 300]);
    let mut value = safe(rng, len);
    if rng.chance(20) {
        let place = rng.below(len);
        value[place] = b'!';
    }
    put(rng, fields, key, &value)
}

fn missing(rng: &mut Rng, mut fields: Fields) -> Fields {
    match rng.below(4) {
        0 => fields.0.retain(|(key, _)| key != "ac"),
        1 => fields.0.retain(|(key, _)| key != "id"),
        2 => return put(rng, fields, "id", b""),
        _ => fields.0.retain(|(key, _)| key != "id" && key != "ac"),
    }
    fields
}

fn bad_prefix(rng: &mut Rng, text: Vec<u8>) -> Vec<u8> {
    let rest = &text[5.min(text.len())..];
    let prefix = rng.word(&[
        "", "5113", "5113 ;", "5114;", "511;", "51", " 5113;", "05113;", "5113:", "5", "72;", "72",
        "7",
    ]);
    [prefix, rest].concat()
}

fn other_case(rng: &mut Rng, mut fields: Fields) -> Fields {
    let place = rng.below(fields.0.len());
    let key = &mut fields.0[place].0;
    *key = match rng.below(3) {
        0 => key.to_uppercase(),
        1 => format!("{key}{key}"),
        _ => rng.pick(&["action", "file_id", "quiet", "size", "a", "i", "_"]).to_string(),
    };
    fields
}

fn flipped(rng: &mut Rng, mut text: Vec<u8>) -> Vec<u8> {
    let place = rng.below(text.len());
    text[place] ^= 1 << rng.below(7);
    text
}

/// A command with fields drawn without regard to each other.
pub fn wild(rng: &mut Rng) -> Vec<u8> {
    let mut fields = Fields(Vec::new());
    for _ in 0..rng.below(7) {
        let key = rng.pick(&KNOWN).to_string();
        let value = match rng.below(5) {
            0 => rng.pick(&ACTIONS).as_bytes().to_vec(),
            1 => bad_values::integer(rng),
            2 => bad_values::base64(rng),
            3 => b"m".to_vec(),
            _ => vec![],
        };
        fields.0.push((key, value));
    }
    fields.text()
}
