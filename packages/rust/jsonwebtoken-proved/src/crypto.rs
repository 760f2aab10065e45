//! Signatures of messages. The message of a token is its header, a dot and its payload, each in base64url.

use crate::base64::{self, URL_SAFE};
use crate::errors::{ErrorKind, Result};
use crate::{Algorithm, DecodingKey, EncodingKey};

/// Returns the signature of a message, in base64url: OpenSSL signs, and the library verifies it before it is returned. Nothing of the
/// message is looked at. [`encode`](crate::encode) signs tokens.
///
/// # Errors
///
/// An algorithm of another family than the key's is [`ErrorKind::InvalidAlgorithm`], and a build without the feature `openssl`
/// [`ErrorKind::Provider`]. The others are the errors of [`encode`](crate::encode).
pub fn sign(message: &[u8], key: &EncodingKey, algorithm: Algorithm) -> Result<String> {
    if key.family() != algorithm.family() {
        return Err(ErrorKind::InvalidAlgorithm.into());
    }
    let private = key.private()?;
    let made = private.sign(algorithm, message)?;
    if private.public().verifier()?.check(algorithm, message, &made)? {
        return Ok(base64::encode(&made));
    }
    Err(ErrorKind::Signing("the signature does not verify by the key".to_string()).into())
}

/// Returns whether a signature in base64url is valid for a message and a key. The message is not read: [`decode`](crate::decode) verifies
/// tokens.
///
/// # Errors
///
/// An algorithm of another family than the key's is [`ErrorKind::InvalidAlgorithm`], a signature that is not base64url
/// [`ErrorKind::Base64`], and a key that does not serve [`ErrorKind::UnusableKey`].
pub fn verify(signature: &str, message: &[u8], key: &DecodingKey, algorithm: Algorithm) -> Result<bool> {
    if key.family() != algorithm.family() {
        return Err(ErrorKind::InvalidAlgorithm.into());
    }
    key.verifier()?.check(algorithm, message, &base64::decode(signature.as_bytes(), URL_SAFE)?)
}
