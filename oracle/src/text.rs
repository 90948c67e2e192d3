//! Numbers and hexadecimal digits, read and written.

use std::fmt::Write;

/// Decimal digits of a value below 2^64; leading zeros are allowed, a sign is not.
pub fn number(field: &[u8]) -> Option<u64> {
    if field.is_empty() {
        return None;
    }
    let mut value: u64 = 0;
    for b in field {
        if !b.is_ascii_digit() {
            return None;
        }
        value = value.checked_mul(10)?.checked_add(u64::from(b - b'0'))?;
    }
    Some(value)
}

/// An even number of hexadecimal digits, at least two, of either case.
pub fn bytes(field: &[u8]) -> Option<Vec<u8>> {
    if field.is_empty() || field.len() % 2 != 0 {
        return None;
    }
    let digit = |b: u8| (b as char).to_digit(16).map(|d| d as u8);
    field.chunks(2).map(|c| Some(digit(c[0])? << 4 | digit(c[1])?)).collect()
}

/// Exactly `N` bytes.
pub fn fixed<const N: usize>(field: &[u8]) -> Option<[u8; N]> {
    if field.len() != 2 * N {
        return None;
    }
    bytes(field)?.try_into().ok()
}

/// Lower case.
pub fn hex(bytes: &[u8]) -> String {
    let mut s = String::with_capacity(bytes.len() * 2);
    for b in bytes {
        write!(s, "{b:02x}").unwrap();
    }
    s
}
