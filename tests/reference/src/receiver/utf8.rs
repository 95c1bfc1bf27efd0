//! UTF-8 by the Unicode Standard's table 3-7, as order 2 asks.

use std::ops::RangeInclusive;

const TAIL: RangeInclusive<u8> = 0x80..=0xbf;

/// Whether the bytes are well formed.
pub fn well_formed(bytes: &[u8]) -> bool {
    let mut rest = bytes;
    while let Some((&first, after)) = rest.split_first() {
        let Some(ranges) = followers(first) else { return false };
        let Some((tail, next)) = after.split_at_checked(ranges.len()) else { return false };
        if !tail.iter().zip(ranges).all(|(byte, range)| range.contains(byte)) {
            return false;
        }
        rest = next;
    }
    true
}

/// The rows of the table: the range of each byte that must follow. None where no sequence begins so.
fn followers(first: u8) -> Option<&'static [RangeInclusive<u8>]> {
    match first {
        0x00..=0x7f => Some(&[]),
        0xc2..=0xdf => Some(&[TAIL]),
        0xe0 => Some(&[0xa0..=0xbf, TAIL]),
        0xe1..=0xec => Some(&[TAIL, TAIL]),
        0xed => Some(&[0x80..=0x9f, TAIL]),
        0xee..=0xef => Some(&[TAIL, TAIL]),
        0xf0 => Some(&[0x90..=0xbf, TAIL, TAIL]),
        0xf1..=0xf3 => Some(&[TAIL, TAIL, TAIL]),
        0xf4 => Some(&[0x80..=0x8f, TAIL, TAIL]),
        _ => None,
    }
}

#[cfg(test)]
mod tests {
    use super::*;

    /// The bytes at which a range of the table begins or ends, and neighbours of them.
    const EDGES: [u8; 29] = [
        0x00, 0x7f, 0x80, 0x81, 0x8f, 0x90, 0x9f, 0xa0, 0xbe, 0xbf, 0xc0, 0xc1, 0xc2, 0xc3, 0xdf,
        0xe0, 0xe1, 0xec, 0xed, 0xee, 0xef, 0xf0, 0xf1, 0xf3, 0xf4, 0xf5, 0xf7, 0xf8, 0xff,
    ];

    /// The standard library's rule is the same table, written by others.
    fn agrees(bytes: &[u8]) {
        assert_eq!(well_formed(bytes), std::str::from_utf8(bytes).is_ok(), "{bytes:02x?}");
    }

    #[test]
    fn every_string_of_up_to_two_bytes() {
        agrees(&[]);
        for a in 0..=0xff {
            agrees(&[a]);
            (0..=0xff).for_each(|b| agrees(&[a, b]));
        }
    }

    #[test]
    fn strings_of_up_to_five_edges() {
        let mut shorter: Vec<Vec<u8>> = vec![Vec::new()];
        for _ in 0..4 {
            let longer = |bytes: &Vec<u8>| EDGES.map(|edge| [&bytes[..], &[edge]].concat());
            shorter = shorter.iter().flat_map(longer).collect();
            shorter.iter().for_each(|bytes| agrees(bytes));
        }
        // A fifth byte shows what is left after a whole sequence.
        for bytes in &shorter {
            [0x7f, 0x80, 0xbf, 0xc2]
                .iter()
                .for_each(|&edge| agrees(&[&bytes[..], &[edge]].concat()));
        }
    }

    #[test]
    fn every_code_point() {
        let mut count = 0;
        for point in (0..=0x10ffff).filter_map(char::from_u32) {
            assert!(well_formed(point.encode_utf8(&mut [0; 4]).as_bytes()), "{point:?}");
            count += 1;
        }
        assert_eq!(count, 0x110000 - 0x800);
    }
}
