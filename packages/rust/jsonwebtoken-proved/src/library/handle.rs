//! What the library holds for the package, `struct jwt_handle`.

use super::calls::{checked, text};
use super::declared;
pub use super::declared::Verdict;
use std::ptr;

/// A handle of the library, which holds keys or a verifier. Calls take it by `&mut`, so that no two have it at once.
pub struct Handle(declared::Handle);

// SAFETY: a handle may go from one thread to another, as long as no two calls have it at once
unsafe impl Send for Handle {}

impl Handle {
    /// Returns a handle that holds nothing.
    pub fn none() -> Handle {
        Handle(declared::Handle { at: ptr::null_mut() })
    }

    /// Returns the struct that a call takes.
    pub(super) fn at(&mut self) -> *mut declared::Handle {
        &mut self.0
    }

    /// Returns another handle of the same verifier.
    pub fn share(&mut self) -> Result<Handle, u32> {
        let mut other = Handle::none();
        // SAFETY: no other call has this handle, and the other one holds nothing
        checked(unsafe { declared::jwt_share(self.at(), other.at()) })?;
        Ok(other)
    }

    /// Returns the verifier that accepts what this one accepts, and else what the second does.
    pub fn or(&mut self, second: &mut Handle) -> Result<Handle, u32> {
        let mut either = Handle::none();
        // SAFETY: no other call has these two handles, and the last one holds nothing
        checked(unsafe { declared::jwt_verifier_or(self.at(), second.at(), either.at()) })?;
        Ok(either)
    }

    /// Verifies a token at the time `now`, and returns its claims, or the status of its refusal.
    pub fn decode(&mut self, token: &[u8], now: u64) -> (Verdict, Result<String, u32>) {
        let mut said = Verdict::default();
        let claims = text(token.len(), |buffer, size, len| {
            // SAFETY: no other call has this handle, the pointer has the length of its slice, and the buffer does not overlap it
            let status = unsafe {
                let (token, token_len) = (token.as_ptr(), token.len());
                declared::jwt_verifier_decode(self.at(), token, token_len, now, buffer, size, &mut said)
            };
            *len = said.len;
            status
        });
        (said, claims)
    }

    /// Verifies the signature of a message by the one key of a verifier.
    pub fn check(&mut self, algorithm: u32, message: &[u8], signature: &[u8]) -> Result<(), u32> {
        // SAFETY: no other call has this handle, and each pointer has the length of its slice
        checked(unsafe {
            let (signature, signature_len) = (signature.as_ptr(), signature.len());
            declared::jwt_verifier_check(
                self.at(),
                algorithm,
                message.as_ptr(),
                message.len(),
                signature,
                signature_len,
            )
        })
    }

    /// Returns the token of a message and a signature. A verifier, if the handle holds one, tests the signature first.
    pub fn attach(&mut self, message: &[u8], signature: &[u8]) -> Result<String, u32> {
        let (signed, signed_len) = (signature.as_ptr(), signature.len());
        // SAFETY: no other call has this handle, each pointer has the length of its slice, and the buffer overlaps none
        text(message.len() + 2 * signature.len() + 2, |buffer, size, len| unsafe {
            declared::jwt_attach(self.at(), message.as_ptr(), message.len(), signed, signed_len, buffer, size, len)
        })
    }
}

impl Drop for Handle {
    fn drop(&mut self) {
        // SAFETY: no other call has this handle
        unsafe { declared::jwt_free(self.at()) }
    }
}
