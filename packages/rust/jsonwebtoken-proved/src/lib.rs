//! JSON Web Tokens (RFC 7519), verified by a library whose contracts are proved, with the public API of the crate `jsonwebtoken`.
//!
//! All twelve algorithms of RFC 7518 and RFC 8037 for HMAC, RSA, P-256, P-384 and Ed25519 are verified, and HS256, HS384 and HS512 are
//! signed. The others are signed with the feature `openssl`, or by a [`Signer`] of yours. Times are in whole seconds since 1970-01-01
//! 00:00:00 UTC.
//!
//! ```
//! use jsonwebtoken_proved::{decode, encode, Algorithm, DecodingKey, EncodingKey, Header, Validation};
//! use serde_json::{json, Value};
//!
//! let secret = b"0123456789abcdef0123456789abcdef";
//! let token = encode(&Header::default(), &json!({"sub": "b@b.com", "exp": 4102444800u64}), &EncodingKey::from_secret(secret))?;
//! let data = decode::<Value>(&token, &DecodingKey::from_secret(secret), &Validation::new(Algorithm::HS256))?;
//! assert_eq!(data.claims["sub"], "b@b.com");
//! # Ok::<(), jsonwebtoken_proved::errors::Error>(())
//! ```
//!
//! Beyond that crate, a [`Verifier`] reads a key, or a key set with keys of several families, and a [`Validation`] once, and verifies many
//! tokens; a [`KeySet`] fetches keys that rotate, and reports each [`SkippedKey`]; [`Verifier::by_issuer`] and [`ByIssuer`] verify tokens
//! of several issuers; [`Validation::strict`] leaves out the leeway and checks `nbf`; and [`SigningInput`] and [`decode_by_verdict`] take
//! external signatures and external verification.
#![warn(missing_docs, clippy::pedantic)]
// names such as EdDSA are the standards' names, and types and calls have the names of the crate jsonwebtoken
#![allow(clippy::doc_markdown, clippy::module_name_repetitions)]
#![deny(unsafe_code)]

mod algorithms;
mod base64;
mod by_issuer;
pub mod crypto;
mod decoding;
mod encoding;
pub mod errors;
mod header;
pub mod jwk;
pub mod jws;
mod kept;
mod keyset;
#[allow(unsafe_code)]
mod library;
mod pem;
mod signature;
mod signing;
mod status;
mod validation;
mod verifier;

pub use algorithms::{Algorithm, AlgorithmFamily};
pub use base64::Base64Error;
pub use by_issuer::ByIssuer;
pub use decoding::{DecodingKey, DecodingKeyKind, TokenData, decode, decode_header};
pub use encoding::{EncodingKey, encode};
pub use header::{Enc, Extras, Header, Zip};
pub use keyset::{KeySet, Rotation};
pub use library::keys::SkippedKey;
pub use signature::{
    SignedPart, Signer, SigningInput, Verdict, decode_by_verdict, ecdsa_signature, encode_with, signed_part,
};
pub use validation::{Validation, get_current_timestamp};
pub use verifier::{Refusal, Verified, Verifier};

/// Reads tokens without verifying them.
pub mod dangerous {
    pub use super::decoding::{insecure_decode, insecure_decode_claims};
}
