//! Generated sequences of bytes at the edges of UTF-8 (table 3-7 of the Unicode Standard), good and bad.

use crate::rng::Rng;

/// The first and the last sequence of each row of the table, and some within.
#[rustfmt::skip]
const GOOD: [&[u8]; 24] = [
    b"\x01", b"\x7f", b"\xc2\x80", b"\xc3\xa9", b"\xdf\xbf",
    b"\xe0\xa0\x80", b"\xe0\xbf\xbf", b"\xe1\x80\x80", b"\xe2\x82\xac", b"\xec\xbf\xbf",
    b"\xed\x80\x80", b"\xed\x9f\xbf", b"\xee\x80\x80", b"\xef\xbf\xbd", b"\xef\xbf\xbe", b"\xef\xbf\xbf",
    b"\xf0\x90\x80\x80", b"\xf0\x9f\x98\x80", b"\xf0\xbf\xbf\xbf", b"\xf1\x80\x80\x80", b"\xf3\xbf\xbf\xbf",
    b"\xf4\x80\x80\x80", b"\xf4\x8f\xbf\xbf", b"\xf4\x8f\x80\xbf",
];

/// One byte beyond a row's bound, cut, or with one too many.
#[rustfmt::skip]
const BAD: [&[u8]; 56] = [
    // The first byte.
    b"\x80", b"\xbf", b"\xc0\x80", b"\xc0\xaf", b"\xc0\xaf..", b"\xc1\xbf",
    b"\xf5\x80\x80\x80", b"\xf7\xbf\xbf\xbf", b"\xf8\x80\x80\x80", b"\xf8\x88\x80\x80\x80", b"\xfe", b"\xff",
    // The second.
    b"\xc2\x7f", b"\xc2\xc0", b"\xdf\x7f", b"\xdf\xc0",
    b"\xe0\x80\x80", b"\xe0\x80\xaf", b"\xe0\x9f\xbf", b"\xe0\xc0\x80", b"\xe1\x7f\x80", b"\xe1\xc0\x80",
    b"\xed\x7f\x80", b"\xed\xa0\x80", b"\xed\xad\xbf", b"\xed\xb0\x80", b"\xed\xbf\xbf", b"\xef\xc0\x80",
    b"\xf0\x80\x80\xaf", b"\xf0\x8f\xbf\xbf", b"\xf0\xc0\x80\x80", b"\xf3\x7f\x80\x80",
    b"\xf4\x7f\x80\x80", b"\xf4\x90\x80\x80", b"\xf4\xbf\xbf\xbf",
    // A later one.
    b"\xe1\x80\x7f", b"\xe1\x80\xc0", b"\xed\x80\xc0", b"\xef\xbf\x7f",
    b"\xf1\x80\x7f\x80", b"\xf1\x80\xc0\x80", b"\xf1\x80\x80\x7f", b"\xf1\x80\x80\xc0", b"\xf4\x8f\xbf\xc0",
    // Cut.
    b"\xc2", b"\xc3", b"\xe1", b"\xe1\x80", b"\xf1", b"\xf1\x80", b"\xf1\x80\x80", b"\xf4\x8f\xbf",
    // One too many.
    b"\xc2\x80\x80", b"\xe1\x80\x80\x80", b"\xf1\x80\x80\x80\x80", b"\x7f\x80",
];

#[rustfmt::skip]
const FIRST: [u8; 20] = [
    0x7f, 0x80, 0xbf, 0xc0, 0xc1, 0xc2, 0xdf, 0xe0, 0xe1, 0xec,
    0xed, 0xee, 0xef, 0xf0, 0xf1, 0xf3, 0xf4, 0xf5, 0xf7, 0xf8,
];
/// The bounds of what may follow.
const INSIDE: [u8; 6] = [0x80, 0x8f, 0x90, 0x9f, 0xa0, 0xbf];
const OUTSIDE: [u8; 3] = [0x7f, 0xc0, b'/'];

pub fn good(rng: &mut Rng) -> &'static [u8] {
    GOOD[rng.below(GOOD.len())]
}

pub fn listed() -> impl Iterator<Item = &'static [u8]> {
    GOOD.into_iter().chain(BAD)
}

/// A sequence about as often good as bad.
pub fn any(rng: &mut Rng) -> Vec<u8> {
    match rng.weighted(&[40, 35, 25]) {
        0 => good(rng).to_vec(),
        1 => rng.pick(&BAD).to_vec(),
        _ => of_bounds(rng),
    }
}

/// Bounds of the table's ranges, as many as the first byte asks for, or sometimes any number.
fn of_bounds(rng: &mut Rng) -> Vec<u8> {
    let first = *rng.pick(&FIRST);
    let asked = first.leading_ones().saturating_sub(1) as usize;
    let count = if rng.chance(85) { asked } else { rng.below(5) };
    let follower = |rng: &mut Rng| {
        let bounds = if rng.chance(95) { &INSIDE[..] } else { &OUTSIDE };
        *rng.pick(bounds)
    };
    let followers: Vec<u8> = (0..count).map(|_| follower(rng)).collect();
    [&[first], &followers[..]].concat()
}

#[cfg(test)]
mod tests {
    use super::*;
    use reference::receiver::name;

    fn in_a_name(sequence: &[u8]) -> Vec<u8> {
        [b"/", sequence].concat()
    }

    #[test]
    fn the_lists_are_what_they_say() {
        assert!(GOOD.iter().all(|sequence| name::good(&in_a_name(sequence))));
        assert!(!BAD.iter().any(|sequence| name::good(&in_a_name(sequence))));
    }

    /// `quick` then has each of them, in every place.
    #[test]
    fn every_edge_of_the_page_is_listed() {
        let page = include_str!("../../../tests/order02.txt");
        let lines = page.lines().skip(1).filter_map(|line| line.split_once(": "));
        for notation in lines.flat_map(|(_, sequences)| sequences.split("  ")) {
            let byte = |hex| u8::from_str_radix(hex, 16).unwrap();
            let sequence: Vec<u8> = notation.split(' ').map(byte).collect();
            assert!(listed().any(|known| known == sequence), "{notation}");
        }
    }

    #[test]
    fn good_and_bad_both_come_often() {
        let mut rng = Rng::new(2);
        let count = (0..1000).filter(|_| name::good(&in_a_name(&any(&mut rng)))).count();
        assert!((400..600).contains(&count), "{count} of 1000 are good");
    }
}
