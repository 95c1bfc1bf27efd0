//! Values that are not of their kind, and some that only look so: for each of order 4's refusals, alone and two in one value.

use crate::fields::{encoded, random_bytes, safe};
use crate::rng::Rng;
use reference::receiver::base64::ALPHABET;

#[rustfmt::skip]
const WORDS: [(&str, &str); 20] = [
    ("ac", ""), ("ac", "Send"), ("ac", "finishe"), ("ac", "finishedd"), ("ac", "enddata"),
    ("ac", "invalid"), ("ac", "finished"), ("ac", "0"), ("zip", ""), ("zip", "zlib"), ("zip", "None"),
    ("zip", "0"), ("ft", ""), ("ft", "regula"), ("ft", "dir"), ("ft", "hardlink"), ("tt", ""),
    ("tt", "delta"), ("tt", "rsync "), ("tt", "2"),
];

#[rustfmt::skip]
const QUIETS: [&str; 16] = [
    "", "3", "x", "00", "-0", "01", "2 ", "-", "-1", "10", "1x", "+1", "none", "2", "99999999999999999999",
    "9223372036854775808",
];

#[rustfmt::skip]
const INTEGERS: [&str; 31] = [
    // The form.
    "", "-", "+1", "--1", "1-", "1a", "x", "0x10", "1 ", "1.5", "-x",
    // Twenty digits, whatever their value.
    "00000000000000000000", "10000000000000000000", "-00000000000000000001", "18446744073709551616",
    "99999999999999999999", "-99999999999999999999", "09223372036854775807",
    // The range.
    "9223372036854775808", "-9223372036854775809", "9999999999999999999", "-9999999999999999999",
    // The form of what would be out of range.
    "9999999999999999999x", "x999999999999999999", "9999999999999999-99", "99999999999999999999x",
    // Good ones.
    "-0", "-0000000000000000000", "0000000000000000000", "9223372036854775807", "-9223372036854775808",
];

#[rustfmt::skip]
const BASE64: [&str; 34] = [
    // The length.
    "AQ", "!", "=", "AAA", "AAAAA", "AAAA=", "AR=", "!AQ==",
    // A `=` in a wrong place, before or after another character that is wrong.
    "====", "A===", "AA=A", "=AAA", "A=A=", "AAA=AAAA", "AB==AAAA", "AAAA====", "A=!=", "=!==", "AA=!", "!===",
    "!A=A", "AA!=AAA=", "!A==A===",
    // A character, before or after unused bits.
    "AR!=", "!AB=", "A!==", "AAA!", "AA-_", "AA A", "AAAA!R==",
    // Unused bits, and none.
    "AR==", "AAB=", "AQI=", "AQID",
];

/// The keys of each kind.
const OF_INTEGERS: [&str; 3] = ["mod", "prm", "sz"];
const OF_BASE64: [&str; 3] = ["n", "st", "d"];
const OF_STRINGS: [&str; 4] = ["id", "fid", "pr", "pw"];

const UNSAFE: &[u8] = b" !\"#$%&'()*+,<=>?[\\]^`{|}~";

/// A key and a value that is most often not of its kind.
pub fn any(rng: &mut Rng) -> (&'static str, Vec<u8>) {
    match rng.weighted(&[20, 15, 25, 25, 15]) {
        0 => {
            let (key, value) = *rng.pick(&WORDS);
            (key, value.into())
        }
        1 => ("q", rng.word(&QUIETS).to_vec()),
        2 => (*rng.pick(&OF_INTEGERS), integer(rng)),
        3 => (*rng.pick(&OF_BASE64), base64(rng)),
        _ => (*rng.pick(&OF_STRINGS), unsafe_string(rng)),
    }
}

pub fn integer(rng: &mut Rng) -> Vec<u8> {
    if rng.chance(70) {
        return rng.word(&INTEGERS).to_vec();
    }
    let near = (1u64 << 63) - 3 + rng.below(6) as u64;
    let mut value = near.to_string().into_bytes();
    let place = rng.below(value.len());
    match rng.below(5) {
        0 => value.insert(place, *rng.pick(b"0x-+ ")),
        1 => value[place] = *rng.pick(b"09x/:"),
        _ => {}
    }
    if rng.chance(50) {
        value.insert(0, b'-');
    }
    value
}

/// Base64 with a fault of one kind, or of several in any order.
pub fn base64(rng: &mut Rng) -> Vec<u8> {
    let most = *rng.pick(&[12, 12, 100]);
    let len = rng.within(1, most);
    let mut value = encoded(&random_bytes(rng, len));
    let place = rng.below(value.len());
    match rng.weighted(&[5, 5, 5, 15, 20, 10, 10, 10, 10, 10]) {
        0 => value.truncate(value.len() - 1),
        1 => value.push(*rng.pick(b"A=!")),
        2 => value.retain(|&b| b != b'='),
        3 => value[place] = *rng.pick(b"-_!, =*[`{@"),
        4 => unused_bit(rng, &mut value),
        5 => value.extend_from_slice(rng.word(&["====", "A===", "AA=A", "=AAA", "AB=="])),
        6 => value.insert(place, b'='),
        7 => {
            unused_bit(rng, &mut value);
            value[place] = *rng.pick(b"!=");
        }
        8 => value = mixed(rng),
        _ => value = rng.word(&BASE64).to_vec(),
    }
    value
}

/// Sets one of the bits that padding leaves unused, two for each `=`. Without padding this is no fault.
fn unused_bit(rng: &mut Rng, value: &mut [u8]) {
    let padding = value.iter().filter(|&&b| b == b'=').count();
    let last = value.len() - padding - 1;
    let sextet = ALPHABET.iter().position(|&b| b == value[last]).unwrap_or(0);
    if padding > 0 {
        value[last] = ALPHABET[sextet | 1 << rng.below(2 * padding)];
    }
}

/// Letters, padding and other characters in any order, most often of a right length.
fn mixed(rng: &mut Rng) -> Vec<u8> {
    let len = if rng.chance(85) { 4 * rng.within(1, 3) } else { rng.within(1, 13) };
    (0..len).map(|_| *rng.pick(b"AAAQQRRR==!")).collect()
}

fn unsafe_string(rng: &mut Rng) -> Vec<u8> {
    let len = *rng.pick(&[0, 1, 2, 3, 31, 32, 33]);
    let mut value = safe(rng, len);
    let place = rng.below(len + 1);
    value.insert(place, *rng.pick(UNSAFE));
    value
}

/// Every listed value with each key of its kind.
pub fn listed() -> Vec<(&'static str, Vec<u8>)> {
    let each = |keys: &[&'static str], values: &[&str]| {
        let with = |key| values.iter().map(move |value| (key, value.as_bytes().to_vec()));
        keys.iter().flat_map(|&key| with(key)).collect::<Vec<_>>()
    };
    let long =
        ["f".repeat(32), "f".repeat(33), "f".repeat(33) + "!", "!".to_string() + &"f".repeat(33)];
    let mut strings: Vec<String> = UNSAFE.iter().map(|&b| (b as char).to_string()).collect();
    strings.extend(["a b", "a,b", ""].map(String::from).into_iter().chain(long));
    let strings: Vec<&str> = strings.iter().map(String::as_str).collect();
    let words = WORDS.iter().map(|&(key, value)| (key, value.as_bytes().to_vec()));
    let mut all: Vec<_> = words.collect();
    all.extend(each(&["q"], &QUIETS));
    all.extend(each(&OF_INTEGERS, &INTEGERS));
    all.extend(each(&OF_BASE64, &BASE64));
    all.extend(each(&OF_STRINGS, &strings));
    all
}

#[cfg(test)]
mod tests {
    use super::*;
    use crate::fields::Fields;
    use reference::receiver::{command, SCRATCH};
    use std::collections::BTreeMap;

    fn refusal(key: &str, value: &[u8]) -> u8 {
        let mut fields = Fields::new("send", b"m");
        fields.0.retain(|(known, _)| known != key);
        let text = fields.with(key, value).text();
        let read = command::read(&text, &mut [0; SCRATCH]);
        read.err().map_or(0, |refusal| refusal as u8)
    }

    /// `quick` then has each of them, with every key of its kind.
    #[test]
    fn every_value_of_the_page_is_listed() {
        let page = include_str!("../../../tests/order04.txt");
        let examples = page.lines().skip(2).flat_map(|line| line.split("  "));
        let texts = examples.filter_map(|example| example.trim_start().rsplit_once(" => "));
        let alone = |text: &&str| !text.contains([';', '{']);
        let texts = texts.map(|(text, _)| text.strip_suffix(";id=m").unwrap_or(text));
        let fields: Vec<&str> = texts.filter(alone).collect();
        assert_eq!(fields.len(), 39);
        for field in fields {
            let (key, value) = field.split_once('=').unwrap();
            let same =
                |(known, listed): &(&str, Vec<u8>)| *known == key && listed == value.as_bytes();
            assert!(listed().iter().any(same), "{field}");
        }
    }

    #[test]
    fn each_refusal_comes_often() {
        let mut rng = Rng::new(4);
        let mut counts = BTreeMap::new();
        for _ in 0..10_000 {
            let (key, value) = any(&mut rng);
            *counts.entry(refusal(key, &value)).or_insert(0) += 1;
        }
        for no in 61..=67 {
            assert!(counts[&no] >= 200, "{no}: {counts:?}");
        }
        assert!(counts[&0] <= 1500, "{counts:?}");
    }
}
