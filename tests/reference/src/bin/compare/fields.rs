//! Generated commands: fields with values of their kinds.

use crate::rng::Rng;
use reference::receiver::base64;

/// A command as a list of fields, in the order of writing.
#[derive(Clone)]
pub struct Fields(pub Vec<(String, Vec<u8>)>);

#[rustfmt::skip]
pub const ACTIONS: [&str; 9] =
    ["send", "receive", "file", "data", "end_data", "finish", "finished", "cancel", "status"];

#[rustfmt::skip]
pub const GOOD_INTEGERS: [&str; 14] = [
    "0", "-0", "1", "007", "4095", "4096", "-1", "420", "493", "0000000000000000000",
    "9223372036854775807", "-9223372036854775808", "1099511627776", "1000000000000000000",
];

impl Fields {
    pub fn new(action: &str, id: &[u8]) -> Self {
        Fields(vec![("ac".into(), action.into()), ("id".into(), id.into())])
    }

    pub fn with(mut self, key: &str, value: &[u8]) -> Self {
        self.0.push((key.into(), value.into()));
        self
    }

    pub fn text(&self) -> Vec<u8> {
        let mut text = b"5113".to_vec();
        for (key, value) in &self.0 {
            text.push(b';');
            text.extend_from_slice(key.as_bytes());
            text.push(b'=');
            text.extend_from_slice(value);
        }
        text
    }

    pub fn has(&self, key: &str) -> bool {
        self.0.iter().any(|(known, _)| known == key)
    }
}

/// Base64 of the bytes.
pub fn encoded(bytes: &[u8]) -> Vec<u8> {
    let mut out = vec![0; bytes.len().div_ceil(3) * 4];
    base64::encode(bytes, &mut out);
    out
}

pub fn random_bytes(rng: &mut Rng, len: usize) -> Vec<u8> {
    (0..len).map(|_| rng.byte()).collect()
}

/// A safe string of the given length.
pub fn safe(rng: &mut Rng, len: usize) -> Vec<u8> {
    const SAFE: &[u8] = b"0123456789abcdefghijklmnopqrstuvwxyzABCDEFGHIJKLMNOPQRSTUVWXYZ_:./@-";
    (0..len).map(|_| *rng.pick(SAFE)).collect()
}

/// Adds optional fields that change no rule, and sometimes shuffles all of them.
pub fn adorn(rng: &mut Rng, mut fields: Fields) -> Fields {
    for _ in 0..rng.weighted(&[60, 25, 10, 5]) {
        let (key, value) = extra(rng);
        if key.starts_with('x') || !fields.has(&key) {
            fields.0.push((key, value));
        }
    }
    if rng.chance(25) {
        rng.shuffle(&mut fields.0);
    } else if rng.chance(10) {
        fields.0.swap(0, 1);
    }
    fields
}

fn extra(rng: &mut Rng) -> (String, Vec<u8>) {
    let integer = rng.pick(&GOOD_INTEGERS).as_bytes().to_vec();
    let (key, value) = match rng.below(13) {
        0 => ("mod", integer),
        1 => ("sz", integer),
        2 => ("zip", b"none".to_vec()),
        3 => ("tt", b"simple".to_vec()),
        4 => ("pr", short_id(rng)),
        5 => ("pw", long_or_short(rng)),
        6 => ("q", rng.pick(&["0", "1", "2"]).as_bytes().to_vec()),
        7 | 8 => ("st", some_base64(rng)),
        9 => ("n", some_base64(rng)),
        10 => ("d", some_base64(rng)),
        11 => ("x", b"a=b, c ?!~".to_vec()),
        _ => (*rng.pick(&["xy_Z9", "x", "x0", "xac"]), vec![]),
    };
    (key.into(), value)
}

fn some_base64(rng: &mut Rng) -> Vec<u8> {
    let len = rng.below(9);
    encoded(&random_bytes(rng, len))
}

fn short_id(rng: &mut Rng) -> Vec<u8> {
    let len = *rng.pick(&[0, 1, 2, 31, 32]);
    safe(rng, len)
}

fn long_or_short(rng: &mut Rng) -> Vec<u8> {
    let len = *rng.pick(&[0, 1, 32, 33, 300]);
    safe(rng, len)
}

/// The ids that a stream uses: some differ only in case, length or their last byte.
pub fn cast(rng: &mut Rng, count: usize) -> Vec<Vec<u8>> {
    let long = safe(rng, 32);
    let mut near = long.clone();
    near[31] = if near[31] == b'a' { b'b' } else { b'a' };
    let mut all = vec![
        b"m".to_vec(),
        b"mm".to_vec(),
        b"M".to_vec(),
        b"a".to_vec(),
        b"0".to_vec(),
        b"@_:./-".to_vec(),
        long[..31].to_vec(),
        long,
        near,
        safe(rng, 8),
    ];
    rng.shuffle(&mut all);
    all.truncate(count);
    all
}
