//! Decimal numbers.

/// A decimal number: digits without a leading zero.
pub fn number(digits: &[u8]) -> Option<u64> {
    let plain = digits.iter().all(u8::is_ascii_digit) && (digits.len() == 1 || !digits.starts_with(b"0"));
    let number = std::str::from_utf8(digits).ok()?.parse().ok()?;
    plain.then_some(number)
}
