//! Integers of a command: an optional `-`, then 1 to 19 digits, within signed 64 bits.

use super::Refusal;

/// The value, or what is wrong: the form of the whole text first, then the range.
pub fn parse(text: &[u8]) -> Result<i64, Refusal> {
    let digits = text.strip_prefix(b"-").unwrap_or(text);
    let negative = digits.len() < text.len();
    if digits.is_empty() || digits.len() > 19 || !digits.iter().all(u8::is_ascii_digit) {
        return Err(Refusal::MalformedInteger);
    }
    // Nineteen digits stay below 2^64.
    let size = digits.iter().fold(0u64, |n, &b| n * 10 + (b - b'0') as u64);
    let value = if negative { 0i64.checked_sub_unsigned(size) } else { i64::try_from(size).ok() };
    value.ok_or(Refusal::OutOfRange)
}

#[cfg(test)]
mod tests {
    use super::*;

    #[test]
    fn limits() {
        assert_eq!(parse(b"9223372036854775807"), Ok(i64::MAX));
        assert_eq!(parse(b"9223372036854775808"), Err(Refusal::OutOfRange));
        assert_eq!(parse(b"-9223372036854775808"), Ok(i64::MIN));
        assert_eq!(parse(b"-9223372036854775809"), Err(Refusal::OutOfRange));
        assert_eq!(parse(b"9999999999999999999"), Err(Refusal::OutOfRange));
        assert_eq!(parse(b"-0"), Ok(0));
        assert_eq!(parse(b"007"), Ok(7));
        for bad in ["", "-", "+1", "--1", "1-", " 1", "00000000000000000000"] {
            assert_eq!(parse(bad.as_bytes()), Err(Refusal::MalformedInteger), "{bad}");
        }
    }
}
