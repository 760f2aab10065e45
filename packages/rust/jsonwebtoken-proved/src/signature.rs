//! External signatures and external verification, such as in a KMS or by another library.

use crate::errors::{Error, ErrorKind, Result};
use crate::library::calls;
use crate::library::handle::Handle;
use crate::{Algorithm, DecodingKey, Header, TokenData, Validation};
use serde::Serialize;
use serde::de::DeserializeOwned;
use std::error::Error as StdError;

/// The parts of a token for external verification. Nothing is verified here.
#[derive(Clone, Debug, PartialEq, Eq)]
pub struct SignedPart<'a> {
    /// The algorithm that the token itself names. Check the signature by the algorithm that your key is for.
    pub algorithm: Algorithm,
    /// The signed bytes.
    pub message: &'a [u8],
    /// The signature's bytes. For ES256 and ES384 these are the two numbers one after the other (RFC 7518 section 3.4).
    pub signature: Vec<u8>,
}

/// The yes or no of other cryptography to a signature.
#[derive(Clone, Copy, Debug, PartialEq, Eq)]
pub struct Verdict<'a> {
    /// The algorithm of the verification.
    pub algorithm: Algorithm,
    /// The message.
    pub message: &'a [u8],
    /// The signature's bytes.
    pub signature: &'a [u8],
    /// Whether the signature is valid for the message and the key.
    pub is_accepted: bool,
}

/// Returns the parts of a token for external verification. Nothing is verified here.
///
/// # Errors
///
/// A text that is not a token is [`ErrorKind::InvalidToken`] or [`ErrorKind::Base64`], and a header that can't be read [`ErrorKind::Json`].
pub fn signed_part(token: &str) -> Result<SignedPart<'_>> {
    let (algorithm, len, signature) = calls::signed_part(token.as_bytes()).map_err(Error::from_status)?;
    let algorithm = Algorithm::from_number(algorithm)?;
    Ok(SignedPart { algorithm, message: &token.as_bytes()[..len], signature })
}

/// Verifies a token at the time `now`, in seconds since 1970-01-01 00:00:00 UTC, like [`decode`](crate::decode), but its signature was
/// checked elsewhere.
///
/// # Errors
///
/// A no, or a verdict on another message or signature than the token's, is [`ErrorKind::InvalidSignature`]. A verdict by another algorithm
/// than the token's is [`ErrorKind::InvalidAlgorithm`].
pub fn decode_by_verdict<T: DeserializeOwned>(
    token: &str,
    verdict: &Verdict<'_>,
    validation: &Validation,
    now: u64,
) -> Result<TokenData<T>> {
    let claims = calls::decode_verdict(token.as_bytes(), verdict, &validation.options()?, now);
    let claims = claims.map_err(|it| validation.error(it))?;
    Ok(TokenData { header: crate::decode_header(token)?, claims: serde_json::from_str(&claims)? })
}

/// A token that is to be signed elsewhere, such as with a key in a KMS.
///
/// ```
/// use jsonwebtoken_proved::{Algorithm, Header, SigningInput};
/// use serde_json::json;
///
/// let input = SigningInput::new(&Header::new(Algorithm::ES256), &json!({"sub": "b@b.com"}))?;
/// let sign = |message: &[u8]| [1; 64]; // your KMS; ecdsa_signature reads DER
/// let token = input.encode(&sign(input.message()))?;
/// # assert!(token.as_bytes().starts_with(input.message()));
/// # Ok::<(), jsonwebtoken_proved::errors::Error>(())
/// ```
#[derive(Clone, Debug, PartialEq, Eq)]
pub struct SigningInput {
    algorithm: Algorithm,
    message: String,
}

impl SigningInput {
    /// Returns the token of a header and claims, without its signature. What serde writes of them is signed byte for byte.
    ///
    /// # Errors
    ///
    /// A header or claims that can't be written, are not an object, or have a name twice are [`ErrorKind::Json`].
    pub fn new<T: Serialize>(header: &Header, claims: &T) -> Result<SigningInput> {
        let message = calls::signing_input(&serde_json::to_vec(header)?, &serde_json::to_vec(claims)?);
        Ok(SigningInput { algorithm: header.alg, message: message.map_err(Error::from_issue_status)? })
    }

    /// Returns the algorithm to sign with.
    #[must_use]
    pub fn algorithm(&self) -> Algorithm {
        self.algorithm
    }

    /// Returns the bytes to sign.
    #[must_use]
    pub fn message(&self) -> &[u8] {
        self.message.as_bytes()
    }

    /// Returns the token with a signature of the message. Whether it is the message's is left to those who verify the token;
    /// [`SigningInput::encode_verified`] verifies it.
    ///
    /// # Errors
    ///
    /// A signature without a length of the algorithm is [`ErrorKind::Signing`]: 64 bytes for ES256 and EdDSA, 96 for ES384, 32, 48 or 64
    /// for HMAC, and at least 1 for RSA.
    pub fn encode(&self, signature: &[u8]) -> Result<String> {
        Handle::none().attach(self.message(), signature).map_err(Error::from_status)
    }

    /// Returns the token with a signature of the message, once the library has verified it by this key.
    ///
    /// # Errors
    ///
    /// Returns the errors of [`SigningInput::encode`]; a signature that does not verify is [`ErrorKind::Signing`], and a key that does not
    /// serve [`ErrorKind::UnusableKey`].
    pub fn encode_verified(&self, signature: &[u8], key: &DecodingKey) -> Result<String> {
        key.verifier()?.attach(self.algorithm, self.message(), signature)
    }
}

/// Signs messages by a key that is elsewhere, such as in a KMS.
pub trait Signer {
    /// Returns the algorithm that it signs with.
    fn algorithm(&self) -> Algorithm;

    /// Returns the public key. With it the library verifies each signature before a token is returned.
    fn verifying_key(&self) -> &DecodingKey;

    /// Returns the signature of a message as a token has it: for ES256 and ES384 the two numbers one after the other, as
    /// [`ecdsa_signature`] makes them of DER.
    ///
    /// # Errors
    ///
    /// The error of your signer becomes [`ErrorKind::Signing`], with its text.
    fn sign(&self, message: &[u8]) -> std::result::Result<Vec<u8>, Box<dyn StdError + Send + Sync>>;
}

/// Returns the token of claims, signed by a signer of yours, once the library has verified the signature.
///
/// # Errors
///
/// A header with another algorithm than the signer's is [`ErrorKind::InvalidAlgorithm`]. The others are the errors of
/// [`SigningInput::new`], [`Signer::sign`] and [`SigningInput::encode_verified`].
pub fn encode_with<T: Serialize, S: Signer + ?Sized>(header: &Header, claims: &T, signer: &S) -> Result<String> {
    if header.alg != signer.algorithm() {
        return Err(ErrorKind::InvalidAlgorithm.into());
    }
    let input = SigningInput::new(header, claims)?;
    let signature = signer.sign(input.message()).map_err(|it| ErrorKind::Signing(it.to_string()))?;
    input.encode_verified(&signature, signer.verifying_key())
}

/// Returns a signature with ES256 or ES384 as a token has it, from one in DER (RFC 3279 section 2.2.3), as OpenSSL and a KMS make it.
///
/// # Errors
///
/// Another algorithm is [`ErrorKind::InvalidAlgorithm`], and bytes that are not the DER of two numbers of its length are
/// [`ErrorKind::InvalidSignature`].
pub fn ecdsa_signature(der: &[u8], algorithm: Algorithm) -> Result<Vec<u8>> {
    calls::ecdsa_signature(der, algorithm.number()).map_err(Error::from_status)
}
