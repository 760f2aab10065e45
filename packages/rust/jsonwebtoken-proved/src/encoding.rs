//! Keys that sign, and the calls that issue tokens.

use crate::base64::{self, STANDARD, URL_SAFE};
use crate::errors::{Error, ErrorKind, Result};
use crate::library::keys::{KeyBytes, Keys, Source};
use crate::signing::PrivateKey;
use crate::{AlgorithmFamily, Header, SigningInput, pem};
use serde::Serialize;
use std::fmt;
use std::sync::Arc;

/// A key that tokens are signed by: a secret, or a private key in DER, which is read once. Its bytes are overwritten when it is dropped.
///
/// A key that does not serve, such as an empty secret, is made all the same, and refused when it is used.
#[derive(Clone)]
pub struct EncodingKey {
    family: AlgorithmFamily,
    bytes: KeyBytes,
    read: Read,
}

/// What was read of a key, or why it is refused when it is used.
type Read = std::result::Result<Signs, ErrorKind>;

#[derive(Clone)]
enum Signs {
    Secret(Arc<Keys>),
    Private(Arc<PrivateKey>),
}

impl EncodingKey {
    fn new(family: AlgorithmFamily, bytes: &[u8]) -> EncodingKey {
        let read = match family {
            AlgorithmFamily::Hmac => {
                let keys = Keys::new(Source::Secret, bytes).map_err(Error::from_key_status);
                keys.map(|it| Signs::Secret(Arc::new(it)))
            }
            _ => PrivateKey::new(family, bytes).map(|it| Signs::Private(Arc::new(it))),
        };
        EncodingKey { family, bytes: KeyBytes(bytes.to_vec()), read: read.map_err(Error::into_kind) }
    }

    /// Returns the family of algorithms that the key is for.
    #[must_use]
    pub fn family(&self) -> AlgorithmFamily {
        self.family
    }

    /// Returns a secret as a key, for HS256, HS384 and HS512.
    #[must_use]
    pub fn from_secret(secret: &[u8]) -> Self {
        EncodingKey::new(AlgorithmFamily::Hmac, secret)
    }

    /// Returns a secret as a key, from base64 with padding.
    ///
    /// # Errors
    ///
    /// Another text is [`ErrorKind::Base64`].
    pub fn from_base64_secret(secret: &str) -> Result<Self> {
        Ok(EncodingKey::from_secret(&base64::decode(secret.as_bytes(), STANDARD)?))
    }

    /// Returns a secret as a key, from base64url, with padding or without it.
    ///
    /// # Errors
    ///
    /// Another text is [`ErrorKind::Base64`].
    pub fn from_urlsafe_base64_secret(secret: &str) -> Result<Self> {
        Ok(EncodingKey::from_secret(&base64::decode(secret.as_bytes(), URL_SAFE)?))
    }

    /// Returns a private RSA key as a key, from PEM of PKCS #8 or PKCS #1.
    ///
    /// # Errors
    ///
    /// Another text is [`ErrorKind::InvalidKeyFormat`]. Without the feature `openssl` this is [`ErrorKind::Provider`].
    pub fn from_rsa_pem(key: &[u8]) -> Result<Self> {
        from_pem(AlgorithmFamily::Rsa, key)
    }

    /// Returns a private key on P-256 or P-384 as a key, from PEM of PKCS #8 or of RFC 5915.
    ///
    /// # Errors
    ///
    /// Returns the errors of [`EncodingKey::from_rsa_pem`].
    pub fn from_ec_pem(key: &[u8]) -> Result<Self> {
        from_pem(AlgorithmFamily::Ec, key)
    }

    /// Returns a private Ed25519 key as a key, from PEM of PKCS #8.
    ///
    /// # Errors
    ///
    /// Returns the errors of [`EncodingKey::from_rsa_pem`].
    pub fn from_ed_pem(key: &[u8]) -> Result<Self> {
        from_pem(AlgorithmFamily::Ed, key)
    }

    /// Returns a private RSA key as a key, from DER of PKCS #1 or PKCS #8.
    #[must_use]
    pub fn from_rsa_der(der: &[u8]) -> Self {
        EncodingKey::new(AlgorithmFamily::Rsa, der)
    }

    /// Returns a private key on P-256 or P-384 as a key, from DER of PKCS #8 or of RFC 5915.
    #[must_use]
    pub fn from_ec_der(der: &[u8]) -> Self {
        EncodingKey::new(AlgorithmFamily::Ec, der)
    }

    /// Returns a private Ed25519 key as a key, from DER of PKCS #8.
    #[must_use]
    pub fn from_ed_der(der: &[u8]) -> Self {
        EncodingKey::new(AlgorithmFamily::Ed, der)
    }

    /// Returns the bytes of the key.
    #[must_use]
    pub fn as_bytes(&self) -> &[u8] {
        &self.bytes.0
    }

    fn read(&self) -> Result<&Signs> {
        self.read.as_ref().map_err(|it| it.clone().into())
    }

    /// Returns the key as OpenSSL has read it, also if it is a secret.
    pub(crate) fn private(&self) -> Result<Arc<PrivateKey>> {
        match self.read()? {
            Signs::Secret(_) => PrivateKey::new(self.family, self.as_bytes()).map(Arc::new),
            Signs::Private(key) => Ok(Arc::clone(key)),
        }
    }
}

impl fmt::Debug for EncodingKey {
    fn fmt(&self, f: &mut fmt::Formatter<'_>) -> fmt::Result {
        write!(f, "EncodingKey({:?}, [redacted])", self.family)
    }
}

/// Returns the key of a text in PEM, if it is of this family.
fn from_pem(family: AlgorithmFamily, text: &[u8]) -> Result<EncodingKey> {
    let der = KeyBytes(pem::first(text).ok_or(ErrorKind::InvalidKeyFormat)?);
    let key = EncodingKey::new(family, &der.0);
    key.read()?;
    Ok(key)
}

/// Returns the token of claims, signed by a key. What serde writes of the header and of the claims is signed byte for byte: the order of
/// the members and the digits of numbers stay.
///
/// HS256, HS384 and HS512 are signed by the library. The others need the feature `openssl`: OpenSSL signs, and the library verifies the
/// signature before the token is returned. [`encode_with`](crate::encode_with) has a signer of yours.
///
/// # Errors
///
/// An algorithm of another family than the key's is [`ErrorKind::InvalidAlgorithm`], and one that the features lack
/// [`ErrorKind::Provider`]; a secret that others may know is [`ErrorKind::UnusableKey`]. Claims that can't be written, are not an object,
/// or have a name twice are [`ErrorKind::Json`]. A private key that can't be read is [`ErrorKind::InvalidKeyFormat`], and one whose
/// signature does not verify [`ErrorKind::Signing`].
pub fn encode<T: Serialize>(header: &Header, claims: &T, key: &EncodingKey) -> Result<String> {
    if header.alg.family() != key.family {
        return Err(ErrorKind::InvalidAlgorithm.into());
    }
    match key.read()? {
        Signs::Secret(secret) => {
            let token = secret.sign(&serde_json::to_vec(header)?, &serde_json::to_vec(claims)?);
            token.map_err(Error::from_issue_status)
        }
        Signs::Private(key) => {
            let input = SigningInput::new(header, claims)?;
            input.encode_verified(&key.sign(header.alg, input.message())?, key.public())
        }
    }
}
