//! Sums insured as text.

/// A sum: digits, with - before them where cover is taken off. One of more digits than an `i64` has is out of range as
/// well, so it becomes the last of them.
pub fn read(field: &[u8]) -> Option<i64> {
    let (negative, digits) = match field {
        [b'-', rest @ ..] => (true, rest),
        all => (false, all),
    };
    if digits.is_empty() {
        return None;
    }
    let mut value = 0i64;
    for b in digits {
        if !b.is_ascii_digit() {
            return None;
        }
        let digit = i64::from(b - b'0');
        value = value.saturating_mul(10);
        value = if negative {
            value.saturating_sub(digit)
        } else {
            value.saturating_add(digit)
        };
    }
    Some(value)
}

#[cfg(test)]
mod tests {
    use super::read;

    #[test]
    fn sums() {
        for (text, value) in [
            ("0", 0),
            ("-0", 0),
            ("25", 25),
            ("-25", -25),
            ("007", 7),
            ("9223372036854775807", i64::MAX),
            ("-9223372036854775808", i64::MIN),
            ("9223372036854775808", i64::MAX),
            ("-99999999999999999999999", i64::MIN),
        ] {
            assert_eq!(read(text.as_bytes()), Some(value), "{text}");
        }
        for text in ["", "-", "+1", "--1", "1.5", " 1", "1e3", "\u{2212}1"] {
            assert_eq!(read(text.as_bytes()), None, "{text}");
        }
    }
}
