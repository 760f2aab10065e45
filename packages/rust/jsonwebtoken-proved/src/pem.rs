//! Texts in PEM (RFC 7468). The library reads public keys.

use crate::base64::{self, STANDARD};

/// Returns the bytes of the first block of a text, whose lines may have any length.
pub fn first(text: &[u8]) -> Option<Vec<u8>> {
    let text = std::str::from_utf8(text).ok()?;
    let (label, from_digits) = text.split_once("-----BEGIN ")?.1.split_once("-----")?;
    let (digits, from_end) = from_digits.split_once("-----END ")?;
    from_end.strip_prefix(label)?.strip_prefix("-----")?;
    let digits: Vec<u8> = digits.bytes().filter(|it| !it.is_ascii_whitespace()).collect();
    base64::decode(&digits, STANDARD).ok()
}
