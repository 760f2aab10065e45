//! The calls for C as safe functions, which return the status of a call that has no result.

use super::declared;
pub use super::declared::{Of, Part};
use crate::{Verdict, status};
use std::ptr;

/// Overwrites the bytes of a secret that is not used any more.
pub fn overwrite(secret: &mut [u8]) {
    for byte in secret {
        // SAFETY: the reference is valid for writes. That it is volatile keeps the compiler from leaving it out.
        unsafe { ptr::write_volatile(byte, 0) }
    }
}

/// Returns the error of a status other than `OK`.
pub fn checked(status: u32) -> Result<(), u32> {
    if status == status::OK { Ok(()) } else { Err(status) }
}

/// Returns the bytes that a call of the library writes to a buffer of at first this size.
pub fn written(size: usize, mut call: impl FnMut(*mut u8, usize, &mut usize) -> u32) -> Result<Vec<u8>, u32> {
    let mut buffer = Vec::with_capacity(size);
    let mut len = 0;
    loop {
        match call(buffer.as_mut_ptr(), buffer.capacity(), &mut len) {
            status::OK => {
                // SAFETY: the call has written this number of bytes to the front of the buffer
                unsafe { buffer.set_len(len) }
                return Ok(buffer);
            }
            status::BUFFER_TOO_SMALL => buffer.reserve(len),
            status => return Err(status),
        }
    }
}

/// Returns the string that a call writes in the same way.
pub fn text(size: usize, call: impl FnMut(*mut u8, usize, &mut usize) -> u32) -> Result<String, u32> {
    written(size, call).map(|it| String::from_utf8(it).expect("the library writes UTF-8"))
}

/// Returns the text of a number, such as the name of a test.
pub fn text_of(of: Of, number: u32) -> Result<String, u32> {
    // SAFETY: the buffer has this length
    text(64, |buffer, size, len| unsafe { declared::jwt_text(of as u32, number, buffer, size, len) })
}

/// Returns the number of the algorithm with this name, or 0.
pub fn algorithm(name: &str) -> u32 {
    // SAFETY: each pointer has the length of its slice
    unsafe { declared::jwt_algorithm(name.as_ptr(), name.len()) }
}

/// Returns what keeps a text from being options.
pub fn options_fault(options: &str) -> Result<String, u32> {
    // SAFETY: the pointer has the length of its slice, and the buffer does not overlap it
    text(128, |buffer, size, len| unsafe {
        declared::jwt_options_fault(options.as_ptr(), options.len(), buffer, size, len)
    })
}

/// Returns a part of a token, as JSON of an object. Nothing is verified.
pub fn unverified(token: &[u8], part: Part) -> Result<String, u32> {
    // SAFETY: the pointer has the length of its slice, and the buffer does not overlap it
    text(token.len() + 64, |buffer, size, len| unsafe {
        declared::jwt_unverified(token.as_ptr(), token.len(), part as u32, buffer, size, len)
    })
}

/// A status, and the claim that it is about (`jwt_verdict.claim`).
pub type Refused = (u32, u32);

/// Checks claims by the rules of options alone.
pub fn check_claims(claims: &str, options: &str, now: u64) -> Result<(), Refused> {
    let mut claim = 0;
    // SAFETY: each pointer has the length of its slice
    checked(unsafe {
        let (options, options_len) = (options.as_ptr(), options.len());
        declared::jwt_check_claims(claims.as_ptr(), claims.len(), options, options_len, now, &mut claim)
    })
    .map_err(|it| (it, claim))
}

/// Returns whether a member of an object is a text, or has it among its items.
pub fn has_text(json: &str, path: &str, text: &str) -> bool {
    // SAFETY: each pointer has the length of its slice
    let status = unsafe {
        let (path, path_len) = (path.as_ptr(), path.len());
        declared::jwt_check_member(json.as_ptr(), json.len(), path, path_len, text.as_ptr(), text.len())
    };
    status == status::OK
}

/// Returns the number of a token's algorithm, the length of its message, and its signature.
pub fn signed_part(token: &[u8]) -> Result<(u32, usize, Vec<u8>), u32> {
    let (mut algorithm, mut message) = (0, 0);
    // SAFETY: the pointer has the length of its slice, and the buffer does not overlap it
    let signature = written(token.len(), |buffer, size, len| unsafe {
        declared::jwt_signed_part(token.as_ptr(), token.len(), &mut algorithm, &mut message, buffer, size, len)
    })?;
    Ok((algorithm, message, signature))
}

/// Returns the claims of a token whose signature was verified elsewhere.
pub fn decode_verdict(token: &[u8], verdict: &Verdict<'_>, options: &str, now: u64) -> Result<String, Refused> {
    let Verdict { algorithm, message, signature, is_accepted } = *verdict;
    let mut claim = 0;
    // SAFETY: each pointer has the length of its slice, and the buffer overlaps none
    text(token.len() + 64, |buffer, size, len| unsafe {
        declared::jwt_decode_verdict(
            token.as_ptr(),
            token.len(),
            algorithm.number(),
            message.as_ptr(),
            message.len(),
            signature.as_ptr(),
            signature.len(),
            is_accepted,
            options.as_ptr(),
            options.len(),
            now,
            &mut claim,
            buffer,
            size,
            len,
        )
    })
    .map_err(|it| (it, claim))
}

/// Returns the message of a header and a payload, which is to be signed.
pub fn signing_input(header: &[u8], payload: &[u8]) -> Result<String, u32> {
    let mut algorithm = 0;
    // SAFETY: each pointer has the length of its slice, and the buffer overlaps none
    text(2 * (header.len() + payload.len()), |buffer, size, len| unsafe {
        let (payload, payload_len) = (payload.as_ptr(), payload.len());
        let algorithm = &mut algorithm;
        declared::jwt_signing_input(header.as_ptr(), header.len(), payload, payload_len, algorithm, buffer, size, len)
    })
}

/// Returns a signature of ECDSA as a token has it, from one in DER.
pub fn ecdsa_signature(der: &[u8], algorithm: u32) -> Result<Vec<u8>, u32> {
    // SAFETY: the pointer has the length of its slice, and the buffer does not overlap it
    written(96, |buffer, size, len| unsafe {
        declared::jwt_ecdsa_signature(der.as_ptr(), der.len(), algorithm, buffer, size, len)
    })
}
