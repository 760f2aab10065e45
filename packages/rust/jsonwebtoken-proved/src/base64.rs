//! Base64 of keys and certificates (RFC 4648 sections 4 and 5). The library reads the parts of tokens.

use std::fmt;

/// The digits of section 4, or of section 5, which are safe in a URL.
pub type Digits = [u8; 64];

pub const STANDARD: &Digits = b"ABCDEFGHIJKLMNOPQRSTUVWXYZabcdefghijklmnopqrstuvwxyz0123456789+/";
pub const URL_SAFE: &Digits = b"ABCDEFGHIJKLMNOPQRSTUVWXYZabcdefghijklmnopqrstuvwxyz0123456789-_";

/// A text that is not base64.
#[derive(Clone, Debug, PartialEq, Eq)]
pub struct Base64Error(&'static str);

impl Base64Error {
    /// The error of a part of a token, which the library reads.
    pub(crate) const OF_TOKEN: Base64Error = Base64Error("a part of the token is not base64url");
    /// The error of a JSON Web Key, which the library reads too.
    pub(crate) const OF_KEY: Base64Error = Base64Error("a number or the secret of the key is not base64url");
}

impl fmt::Display for Base64Error {
    fn fmt(&self, f: &mut fmt::Formatter<'_>) -> fmt::Result {
        f.write_str(self.0)
    }
}

impl std::error::Error for Base64Error {}

/// Returns bytes as base64url, without padding.
pub fn encode(bytes: &[u8]) -> String {
    let of_three = |it: &[u8]| {
        let bits = it.iter().fold(0, |bits, byte| bits << 8 | u32::from(*byte)) << (8 * (3 - it.len()));
        (0..=it.len()).map(move |place| URL_SAFE[(bits >> (18 - 6 * place) & 63) as usize] as char)
    };
    bytes.chunks(3).flat_map(of_three).collect()
}

/// Returns the bytes of a text with or without padding. The unused bits of the last digit must be 0.
pub fn decode(text: &[u8], digits: &Digits) -> Result<Vec<u8>, Base64Error> {
    let padding = text.iter().rev().take_while(|it| **it == b'=').count();
    let text = match padding {
        0 => text,
        1 | 2 if text.len() % 4 == 0 => &text[..text.len() - padding],
        _ => return Err(Base64Error("it is padded wrongly")),
    };
    if text.len() % 4 == 1 {
        return Err(Base64Error("it is cut"));
    }
    let mut bytes = Vec::with_capacity(text.len() / 4 * 3 + 2);
    for digits_of_three in text.chunks(4) {
        let mut bits = 0;
        for digit in digits_of_three {
            let found = digits.iter().position(|it| it == digit);
            bits = bits << 6 | found.ok_or(Base64Error("it has a character that is not a digit"))?;
        }
        bits <<= 6 * (4 - digits_of_three.len());
        let len = digits_of_three.len() - 1;
        if bits & ((1 << (8 * (3 - len))) - 1) != 0 {
            return Err(Base64Error("the unused bits of its last digit are not 0"));
        }
        bytes.extend((0..len).map(|place| (bits >> (16 - 8 * place)).to_le_bytes()[0]));
    }
    Ok(bytes)
}
