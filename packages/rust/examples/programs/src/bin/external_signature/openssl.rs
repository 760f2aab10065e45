//! ECDSA over P-256 by OpenSSL's libcrypto.

use std::ffi::c_void;
use std::os::raw::{c_int, c_long};
use std::ptr;

type Ptr = *mut c_void;

#[link(name = "crypto")]
extern "C" {
    fn d2i_PUBKEY(key: *mut Ptr, der: *mut *const u8, len: c_long) -> Ptr;
    fn EVP_PKEY_free(key: Ptr);
    fn EVP_MD_CTX_new() -> Ptr;
    fn EVP_MD_CTX_free(context: Ptr);
    fn EVP_sha256() -> Ptr;
    fn EVP_DigestVerifyInit(context: Ptr, used: *mut Ptr, hash: Ptr, engine: Ptr, key: Ptr) -> c_int;
    fn EVP_DigestVerify(context: Ptr, signature: *const u8, len: usize, message: *const u8, size: usize) -> c_int;
}

// The bytes before a point in the DER form of a public key on P-256 (RFC 5480 section 2).
const BEFORE_POINT: [u8; 26] = [
    0x30, 0x59, 0x30, 0x13, 6, 7, 0x2a, 0x86, 0x48, 0xce, 0x3d, 2, 1, 6, 8, 0x2a, 0x86, 0x48, 0xce, 0x3d, 3, 1, 7, 3,
    0x42, 0,
];

// Returns an unsigned number in DER.
fn der_number(bytes: &[u8]) -> Vec<u8> {
    let start = bytes.iter().position(|byte| *byte != 0).unwrap_or(bytes.len());
    let mut number = bytes[start..].to_vec();
    if !matches!(number.first(), Some(0..=0x7f)) {
        number.insert(0, 0);
    }
    [vec![2, number.len() as u8], number].concat()
}

/// Returns whether the signature, two numbers of 32 bytes (RFC 7518 section 3.4), is that of the message by the key of this point.
pub fn accepts(x: &[u8; 32], y: &[u8; 32], message: &[u8], signature: &[u8]) -> bool {
    if signature.len() != 64 {
        return false;
    }
    let numbers = [der_number(&signature[..32]), der_number(&signature[32..])].concat();
    let signature = [vec![0x30, numbers.len() as u8], numbers].concat();
    let der = [&BEFORE_POINT[..], &[4], x, y].concat();
    unsafe {
        let key = d2i_PUBKEY(ptr::null_mut(), &mut der.as_ptr(), der.len() as c_long);
        let context = EVP_MD_CTX_new();
        let is_ready = !key.is_null()
            && !context.is_null()
            && EVP_DigestVerifyInit(context, ptr::null_mut(), EVP_sha256(), ptr::null_mut(), key) == 1;
        let verdict = is_ready
            && EVP_DigestVerify(context, signature.as_ptr(), signature.len(), message.as_ptr(), message.len()) == 1;
        EVP_MD_CTX_free(context);
        EVP_PKEY_free(key);
        verdict
    }
}
