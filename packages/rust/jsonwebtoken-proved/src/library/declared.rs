//! The declarations of `jwtproved.h`.

use std::ffi::c_void;

/// `struct jwt_handle`.
#[repr(C)]
pub struct Handle {
    pub at: *mut c_void,
}

/// `struct jwt_key_info`.
#[repr(C)]
#[derive(Default)]
pub struct KeyInfo {
    pub status: u32,
    pub verifies: u32,
    pub signs: u32,
}

/// `struct jwt_verdict`.
#[repr(C)]
#[derive(Debug, Default)]
pub struct Verdict {
    pub last: u64,
    pub len: usize,
    pub verifier: usize,
    pub algorithm: u32,
    pub test: u32,
    pub claim: u32,
    pub has_kid: u32,
    pub as_signed: u32,
}

/// The place of all items of a handle together, `JWT_ALL`.
pub const ALL: usize = usize::MAX;

#[rustfmt::skip] // a call in few lines
extern "C" {
    pub fn jwt_share(handle: *mut Handle, other: *mut Handle) -> u32;
    pub fn jwt_free(handle: *mut Handle);
    pub fn jwt_keys_add(
        keys: *mut Handle, source: u32, bytes: *const u8, bytes_len: usize, items: *mut usize, kept: *mut usize,
    ) -> u32;
    pub fn jwt_keys_info(keys: *mut Handle, at: usize, info: *mut KeyInfo) -> u32;
    pub fn jwt_keys_text(keys: *mut Handle, at: usize, buffer: *mut u8, buffer_len: usize, len: *mut usize) -> u32;
    pub fn jwt_thumbprint(
        keys: *mut Handle, at: usize, bits: u32, buffer: *mut u8, buffer_len: usize, len: *mut usize,
    ) -> u32;
    pub fn jwt_verifier_new(
        keys: *mut Handle, options: *const u8, options_len: usize, max_token_len: usize, max_prepared: usize,
        verifier: *mut Handle,
    ) -> u32;
    pub fn jwt_verifier_decode(
        verifier: *mut Handle, token: *const u8, token_len: usize, now: u64, buffer: *mut u8, buffer_len: usize,
        said: *mut Verdict,
    ) -> u32;
    pub fn jwt_verifier_or(first: *mut Handle, second: *mut Handle, either: *mut Handle) -> u32;
    pub fn jwt_verifier_check(
        verifier: *mut Handle, algorithm: u32, message: *const u8, message_len: usize, signature: *const u8,
        signature_len: usize,
    ) -> u32;
    pub fn jwt_check_member(
        json: *const u8, json_len: usize, path: *const u8, path_len: usize, text: *const u8, text_len: usize,
    ) -> u32;
    pub fn jwt_signed_part(
        token: *const u8, token_len: usize, algorithm: *mut u32, message_len: *mut usize, buffer: *mut u8,
        buffer_len: usize, len: *mut usize,
    ) -> u32;
    pub fn jwt_decode_verdict(
        token: *const u8, token_len: usize, algorithm: u32, message: *const u8, message_len: usize,
        signature: *const u8, signature_len: usize, verdict: bool, options: *const u8, options_len: usize, now: u64,
        claim: *mut u32, buffer: *mut u8, buffer_len: usize, len: *mut usize,
    ) -> u32;
    pub fn jwt_unverified(
        token: *const u8, token_len: usize, part: u32, buffer: *mut u8, buffer_len: usize, len: *mut usize,
    ) -> u32;
    pub fn jwt_check_claims(
        claims: *const u8, claims_len: usize, options: *const u8, options_len: usize, now: u64, claim: *mut u32,
    ) -> u32;
    pub fn jwt_sign(
        keys: *mut Handle, header: *const u8, header_len: usize, payload: *const u8, payload_len: usize,
        buffer: *mut u8, buffer_len: usize, len: *mut usize,
    ) -> u32;
    pub fn jwt_signing_input(
        header: *const u8, header_len: usize, payload: *const u8, payload_len: usize, algorithm: *mut u32,
        buffer: *mut u8, buffer_len: usize, len: *mut usize,
    ) -> u32;
    pub fn jwt_attach(
        verifier: *mut Handle, message: *const u8, message_len: usize, signature: *const u8, signature_len: usize,
        buffer: *mut u8, buffer_len: usize, len: *mut usize,
    ) -> u32;
    pub fn jwt_ecdsa_signature(
        der: *const u8, der_len: usize, algorithm: u32, buffer: *mut u8, buffer_len: usize, len: *mut usize,
    ) -> u32;
    pub fn jwt_options_fault(
        options: *const u8, options_len: usize, buffer: *mut u8, buffer_len: usize, len: *mut usize,
    ) -> u32;
    pub fn jwt_algorithm(name: *const u8, name_len: usize) -> u32;
    pub fn jwt_text(of: u32, number: u32, buffer: *mut u8, buffer_len: usize, len: *mut usize) -> u32;
}

/// What the bytes of keys are, `enum jwt_source`.
#[derive(Clone, Copy, Debug)]
pub enum Source {
    Text = 1,
    Secret = 2,
    Certificate = 3,
    Set = 4,
}

/// What a number stands for, `enum jwt_of`.
#[derive(Clone, Copy, Debug)]
pub enum Of {
    Status = 1,
    Test = 2,
    Algorithm = 3,
}

/// A part of a token, `enum jwt_part`.
#[derive(Clone, Copy, Debug)]
pub enum Part {
    Header = 1,
    Payload = 2,
}
