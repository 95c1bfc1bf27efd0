//! Scans over runs of bytes, written so that the compiler uses vector instructions.

/// Bytes looked at in one step.
const STEP: usize = 32;

/// The place of the first `wanted` in `bytes`.
#[inline]
pub fn find(bytes: &[u8], wanted: u8) -> Option<usize> {
    let clear = bytes
        .chunks_exact(STEP)
        .take_while(|step| !step.iter().fold(false, |hit, &b| hit | (b == wanted)))
        .count();
    let from = clear * STEP;
    let place = bytes[from..].iter().position(|&b| b == wanted)?;
    Some(from + place)
}

/// Whether `test` holds of every byte. The test must be free of branches to be fast.
#[inline]
pub fn all(bytes: &[u8], test: impl Fn(u8) -> bool) -> bool {
    let steps = bytes.chunks_exact(STEP);
    let rest = steps.remainder();
    let whole = |part: &[u8]| part.iter().fold(true, |good, &b| good & test(b));
    steps.fold(true, |good, step| good & whole(step)) & whole(rest)
}

#[cfg(test)]
mod tests {
    use super::*;

    #[test]
    fn find_gives_the_first_place() {
        for len in 0..100 {
            for place in 0..len {
                let mut bytes = vec![b'x'; len];
                bytes[place] = 0x1b;
                bytes[len - 1] = 0x1b;
                assert_eq!(find(&bytes, 0x1b), Some(place));
            }
            assert_eq!(find(&vec![b'x'; len], 0x1b), None);
        }
    }

    #[test]
    fn all_sees_every_byte() {
        for len in 1..100 {
            for place in 0..len {
                let mut bytes = vec![b'x'; len];
                assert!(all(&bytes, |b| b == b'x'));
                bytes[place] = b'y';
                assert!(!all(&bytes, |b| b == b'x'));
            }
        }
    }
}
