//! The weak sum of the rsync technical report, with M = 2^16.

const M: u64 = 1 << 16;

/// a = the sum of Xi mod M, b = the sum of (n - i + 1) Xi mod M, s = a + M b, for X1 to Xn.
pub fn sum(window: &[u8]) -> u32 {
    let n = window.len() as u64;
    let a: u64 = window.iter().map(|&x| u64::from(x)).sum();
    let b: u64 = window.iter().zip(1..).map(|(&x, i)| (n - i + 1) * u64::from(x)).sum();
    (a % M + M * (b % M)) as u32
}

/// The sum of a window of `n` bytes moved one byte on: `first` leaves it, `next` joins it.
pub fn roll(sum: u32, n: usize, first: u8, next: u8) -> u32 {
    let modulus = M as i128;
    let (a, b) = (i128::from(sum) % modulus, i128::from(sum) / modulus);
    let a = (a - i128::from(first) + i128::from(next)).rem_euclid(modulus);
    let b = (b - n as i128 * i128::from(first) + a).rem_euclid(modulus);
    (a + modulus * b) as u32
}

#[cfg(test)]
mod tests {
    use super::*;

    #[test]
    fn rolled_equals_worked_out_afresh() {
        let bytes: Vec<u8> = (0..2000u32).map(|i| (i * i / 7 + i) as u8 | (i % 3) as u8).collect();
        for n in [1, 2, 3, 16, 255, 256, 257, 1000] {
            let mut rolled = sum(&bytes[..n]);
            for at in 0..bytes.len() - n {
                rolled = roll(rolled, n, bytes[at], bytes[at + n]);
                assert_eq!(rolled, sum(&bytes[at + 1..at + 1 + n]));
            }
        }
    }

    /// A window longer than M.
    #[test]
    fn a_long_window_rolls() {
        let bytes: Vec<u8> = (0..70_000u32).map(|i| (i % 251) as u8).collect();
        let n = 66_000;
        assert_eq!(roll(sum(&bytes[..n]), n, bytes[0], bytes[n]), sum(&bytes[1..n + 1]));
    }
}
