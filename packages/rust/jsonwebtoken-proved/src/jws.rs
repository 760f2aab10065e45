//! Tokens in JSON, in the flattened form (RFC 7515 section 7.2.2).

use crate::errors::{ErrorKind, Result};
use crate::{DecodingKey, EncodingKey, Header, TokenData, Validation};
use serde::de::DeserializeOwned;
use serde::{Deserialize, Serialize};
use std::marker::PhantomData;

/// A token in JSON. Its parts are in base64url.
#[derive(Clone, Debug, Serialize, Deserialize)]
pub struct Jws<C> {
    /// The header.
    pub protected: String,
    /// The payload.
    pub payload: String,
    /// The signature.
    pub signature: String,
    /// The type of the claims.
    #[serde(skip)]
    pub _pd: PhantomData<C>,
}

/// Returns the token of claims, signed by a key, like [`encode`](crate::encode()).
///
/// # Errors
///
/// Returns the errors of [`encode`](crate::encode()), and a token without claims is [`ErrorKind::Provider`].
pub fn encode<T: Serialize>(header: &Header, claims: Option<&T>, key: &EncodingKey) -> Result<Jws<T>> {
    let claims = claims.ok_or_else(|| ErrorKind::Provider("a token without claims is not signed".to_string()))?;
    let token = crate::encode(header, claims, key)?;
    let mut parts = token.split('.').map(str::to_string);
    let mut next = || parts.next().unwrap_or_default();
    Ok(Jws { protected: next(), payload: next(), signature: next(), _pd: PhantomData })
}

/// Verifies a token like [`decode`](crate::decode()).
///
/// # Errors
///
/// Returns the errors of [`decode`](crate::decode()).
pub fn decode<T: DeserializeOwned>(jws: &Jws<T>, key: &DecodingKey, validation: &Validation) -> Result<TokenData<T>> {
    crate::decode([jws.protected.as_str(), &jws.payload, &jws.signature].join("."), key, validation)
}
