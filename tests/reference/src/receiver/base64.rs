//! Base64 of RFC 4648 section 4: padding required, unused bits zero. Order 12 reads it with optional padding too.

use super::{scan, Refusal};

pub const ALPHABET: &[u8; 64] = b"ABCDEFGHIJKLMNOPQRSTUVWXYZabcdefghijklmnopqrstuvwxyz0123456789+/";

/// Six bits for each byte of the alphabet; other bytes are refused before they are looked up.
const SEXTETS: [u8; 256] = {
    let mut table = [0; 256];
    let mut i = 0;
    while i < 64 {
        table[ALPHABET[i] as usize] = i as u8;
        i += 1;
    }
    table
};

#[inline]
fn in_alphabet(b: u8) -> bool {
    (b.wrapping_sub(b'A') < 26)
        | (b.wrapping_sub(b'a') < 26)
        | (b.wrapping_sub(b'0') < 10)
        | (b == b'+')
        | (b == b'/')
}

/// The number of `=` at the end, two at most.
fn padding(text: &[u8]) -> usize {
    text.iter().rev().take(2).take_while(|&&b| b == b'=').count()
}

/// The first byte that may not stand among the digits decides. A `=` in a right place is none of them.
fn first_fault(digits: &[u8]) -> Refusal {
    match digits.iter().find(|&&b| !in_alphabet(b)) {
        Some(b'=') => Refusal::Base64Length,
        _ => Refusal::Base64Character,
    }
}

/// The decoded length, or what is wrong. Looks at the whole text.
pub fn check(text: &[u8]) -> Result<usize, Refusal> {
    if !text.len().is_multiple_of(4) {
        return Err(Refusal::Base64Length);
    }
    let padding = padding(text);
    let digits = &text[..text.len() - padding];
    if !scan::all(digits, in_alphabet) {
        return Err(first_fault(digits));
    }
    let unused = match padding {
        0 => 0,
        1 => 0b11,
        _ => 0b1111,
    };
    let last = digits.last().map_or(0, |&b| SEXTETS[b as usize]);
    if last & unused != 0 {
        return Err(Refusal::UnusedBits);
    }
    Ok(text.len() / 4 * 3 - padding)
}

/// Order 12's rule, with optional padding: the bytes, or what is wrong. A last `=` needs a whole length; without one, what is lacking is
/// added first, and a lone letter lacks nothing that could be added.
pub fn decode_optional(text: &[u8]) -> Result<Vec<u8>, Refusal> {
    let lacking: &[u8] = match (text.last(), text.len() % 4) {
        (Some(b'='), _) => b"",
        (_, 2) => b"==",
        (_, 3) => b"=",
        _ => b"",
    };
    let padded = [text, lacking].concat();
    let mut out = vec![0; check(&padded)?];
    decode(&padded, &mut out);
    Ok(out)
}

#[inline]
fn group(four: &[u8]) -> [u8; 4] {
    let bits = four.iter().fold(0u32, |bits, &b| bits << 6 | SEXTETS[b as usize] as u32);
    bits.to_be_bytes()
}

/// Decodes a text that `check` accepted into `out`, which is as long as `check` said.
pub fn decode(text: &[u8], out: &mut [u8]) {
    let whole = out.len() / 3;
    let (head, tail) = text.split_at(whole * 4);
    let (body, rest) = out.split_at_mut(whole * 3);
    for (four, three) in head.chunks_exact(4).zip(body.chunks_exact_mut(3)) {
        three.copy_from_slice(&group(four)[1..]);
    }
    if !rest.is_empty() {
        let bytes = group(tail);
        rest.copy_from_slice(&bytes[1..1 + rest.len()]);
    }
}

/// Encodes `bytes` at the start of `out` and gives the number of bytes written.
pub fn encode(bytes: &[u8], out: &mut [u8]) -> usize {
    let groups = bytes.chunks(3).zip(out.chunks_exact_mut(4));
    for (three, four) in groups {
        let byte = |i: usize| *three.get(i).unwrap_or(&0) as usize;
        let bits = byte(0) << 16 | byte(1) << 8 | byte(2);
        for (i, place) in four.iter_mut().enumerate() {
            *place = if i > three.len() { b'=' } else { ALPHABET[bits >> (18 - 6 * i) & 63] };
        }
    }
    bytes.len().div_ceil(3) * 4
}

#[cfg(test)]
mod tests {
    use super::*;

    fn decoded(text: &[u8]) -> Result<Vec<u8>, Refusal> {
        let mut out = vec![0; check(text)?];
        decode(text, &mut out);
        Ok(out)
    }

    /// RFC 4648 section 10.
    const VECTORS: [(&str, &str); 7] = [
        ("", ""),
        ("f", "Zg=="),
        ("fo", "Zm8="),
        ("foo", "Zm9v"),
        ("foob", "Zm9vYg=="),
        ("fooba", "Zm9vYmE="),
        ("foobar", "Zm9vYmFy"),
    ];

    #[test]
    fn the_vectors_of_the_rfc_both_ways() {
        for (plain, text) in VECTORS {
            let mut out = [0; 16];
            let len = encode(plain.as_bytes(), &mut out);
            assert_eq!(&out[..len], text.as_bytes());
            assert_eq!(decoded(text.as_bytes()).unwrap(), plain.as_bytes());
        }
    }

    #[test]
    fn the_cases_of_document_01() {
        assert_eq!(decoded(b"AQID").unwrap(), [1, 2, 3]);
        assert_eq!(decoded(b"c29tZWZpbGU=").unwrap(), b"somefile");
        for bad in ["AQ", "AR==", "A===", "====", "AA=A", "A=AA", "AAA!", "AQI=AQID", "AAB="] {
            assert!(decoded(bad.as_bytes()).is_err(), "{bad}");
        }
    }

    /// Order 4's reading, word for word: the length, then each character from the left, then the unused bits.
    fn by_the_page(text: &[u8]) -> Option<Refusal> {
        if text.len() % 4 != 0 {
            return Some(Refusal::Base64Length);
        }
        for (i, &b) in text.iter().enumerate() {
            let padding = i + 1 == text.len() || i + 2 == text.len() && text[i + 1] == b'=';
            match b {
                b'=' if !padding => return Some(Refusal::Base64Length),
                _ if b != b'=' && !ALPHABET.contains(&b) => return Some(Refusal::Base64Character),
                _ => {}
            }
        }
        // The bytes have one text with unused bits zero.
        let bytes: Vec<u8> = text.chunks(4).flat_map(|four| group(four)[1..].to_vec()).collect();
        let padding = text.iter().filter(|&&b| b == b'=').count();
        let mut canonical = vec![0; text.len()];
        encode(&bytes[..bytes.len() - padding], &mut canonical);
        (canonical != text).then_some(Refusal::UnusedBits)
    }

    /// Every text of at most so many letters, among them faults.
    fn short_texts(most: u32) -> impl Iterator<Item = Vec<u8>> {
        let letters = b"AQR=!";
        let text = move |len, number: usize| {
            let letter = |i| letters[number / letters.len().pow(i) % letters.len()];
            (0..len).map(letter).collect()
        };
        (0..=most)
            .flat_map(move |len| (0..letters.len().pow(len)).map(move |number| text(len, number)))
    }

    #[test]
    fn every_short_text_is_told_as_the_page_says() {
        for text in short_texts(8) {
            assert_eq!(check(&text).err(), by_the_page(&text), "{text:?}");
        }
    }

    /// Order 12's sentence 4, word for word, with the letters read bit by bit.
    fn optional_by_the_page(text: &[u8]) -> Result<Vec<u8>, Refusal> {
        let (len, ends) = (text.len(), text.last() == Some(&b'='));
        if ends && len % 4 != 0 || !ends && len % 4 == 1 {
            return Err(Refusal::Base64Length);
        }
        let mut bits = Vec::new();
        for (i, &b) in text.iter().enumerate() {
            let last = i + 1 == len || i + 2 == len && ends;
            match ALPHABET.iter().position(|&letter| letter == b) {
                Some(value) => bits.extend((0..6).rev().map(|bit| value >> bit & 1)),
                None if b != b'=' => return Err(Refusal::Base64Character),
                None if !last => return Err(Refusal::Base64Length),
                None => {}
            }
        }
        let unused = bits.chunks_exact(8).remainder().contains(&1);
        let byte = |eight: &[usize]| eight.iter().fold(0, |byte, &bit| byte << 1 | bit as u8);
        let bytes = bits.chunks_exact(8).map(byte).collect();
        (!unused).then_some(bytes).ok_or(Refusal::UnusedBits)
    }

    #[test]
    fn every_short_text_is_told_as_order_12_says() {
        let mut good = 0;
        for text in short_texts(8) {
            let optional = decode_optional(&text);
            assert_eq!(optional, optional_by_the_page(&text), "{text:?}");
            if let Ok(bytes) = decoded(&text) {
                assert_eq!(optional, Ok(bytes), "{text:?}");
            }
            good += usize::from(optional.is_ok());
        }
        assert!(good > 10_000, "{good}");
    }

    /// All or none: of any bytes just their text and that without its padding are read.
    #[test]
    fn padding_is_all_or_none() {
        for (plain, text) in VECTORS {
            let letters = text.trim_end_matches('=');
            for count in 0..4 {
                let given = format!("{letters}{}", "=".repeat(count));
                let good = given == text || given == letters;
                let expected = good.then(|| plain.as_bytes().to_vec());
                assert_eq!(decode_optional(given.as_bytes()).ok(), expected, "{given}");
            }
        }
    }
}
