//! Keys that verify, and the calls that read tokens.

use crate::base64::{self, STANDARD, URL_SAFE};
use crate::errors::{Error, ErrorKind, Result};
use crate::jwk::Jwk;
use crate::kept::Kept;
use crate::library::calls::{self, Part};
use crate::library::keys::{KeyBytes, Keys, Source};
use crate::{AlgorithmFamily, Header, Validation, Verifier, pem, status, validation};
use serde::de::DeserializeOwned;
use std::fmt;
use std::sync::Arc;

/// The header and the claims of a token.
#[derive(Clone, Debug)]
pub struct TokenData<T> {
    /// The header.
    pub header: Header,
    /// The claims.
    pub claims: T,
}

/// The bytes of a key that verifies. They are overwritten when it is dropped.
#[derive(Clone)]
pub enum DecodingKeyKind {
    /// A secret, or the DER of a public RSA key, the uncompressed point of a curve, or the 32 bytes of Ed25519.
    SecretOrDer(Vec<u8>),
    /// The numbers of an RSA key, as big-endian bytes.
    RsaModulusExponent {
        /// The modulus.
        n: Vec<u8>,
        /// The exponent.
        e: Vec<u8>,
    },
}

impl Drop for DecodingKeyKind {
    fn drop(&mut self) {
        if let DecodingKeyKind::SecretOrDer(bytes) = self {
            calls::overwrite(bytes);
        }
    }
}

impl fmt::Debug for DecodingKeyKind {
    fn fmt(&self, f: &mut fmt::Formatter<'_>) -> fmt::Result {
        f.write_str(match self {
            DecodingKeyKind::SecretOrDer(_) => "SecretOrDer([redacted])",
            DecodingKeyKind::RsaModulusExponent { .. } => "RsaModulusExponent([redacted])",
        })
    }
}

/// A key that tokens are verified by, which is read once, when it is made.
///
/// [`DecodingKey::from_jwk`] and the calls that read PEM return an error if the library can't verify with the key. The other calls can't
/// fail with it, and make such a key all the same: it is refused when it is used. A secret that others may know is one of zeros alone, an
/// empty one, and the text of a key of another kind: a text that contains an SSH key or PEM, the JSON of a JSON Web Key or a set, a key or
/// a certificate in DER, or base64 of any of these. RFC 7518 section 3.2 requires secrets of at least 32, 48 and 64 bytes for HS256, HS384
/// and HS512.
///
/// A key keeps the verifier of the last [`Validation`] that [`decode`] was called with, and its clones share it: make a key once, and not
/// for each token.
#[derive(Clone)]
pub struct DecodingKey {
    family: AlgorithmFamily,
    kind: DecodingKeyKind,
    read: Read,
    /// The verifier of [`decode`].
    kept: Kept,
}

/// What was read of a key, or why it is refused when it is used.
type Read = std::result::Result<Arc<Keys>, ErrorKind>;

/// Returns a key of the library, if it is of this family.
fn of_family(family: AlgorithmFamily, read: std::result::Result<Keys, u32>) -> Read {
    let keys = read.map_err(|it| Error::from_key_status(it).into_kind())?;
    let is_of_family = family.algorithms().iter().any(|it| keys.verifies() & it.bit() != 0);
    if is_of_family { Ok(Arc::new(keys)) } else { Err(ErrorKind::InvalidKeyFormat) }
}

const NOT_DER: &str =
    "it is neither DER nor the bytes of a point; the calls that end in _pem read PEM, and from_jwk reads JSON";

/// Returns the DER of a SubjectPublicKeyInfo of a key that is a point of P-256 or P-384 (RFC 5480 section 2) or the 32 bytes of Ed25519
/// (RFC 8410 section 4), and other bytes as they are.
fn with_algorithm(key: &[u8]) -> Vec<u8> {
    let algorithm: &[u8] = match key.len() {
        32 => b"\x30\x2a\x30\x05\x06\x03\x2b\x65\x70\x03\x21\0",
        65 => b"\x30\x59\x30\x13\x06\x07\x2a\x86\x48\xce\x3d\x02\x01\x06\x08\x2a\x86\x48\xce\x3d\x03\x01\x07\x03\x42\0",
        97 => b"\x30\x76\x30\x10\x06\x07\x2a\x86\x48\xce\x3d\x02\x01\x06\x05\x2b\x81\x04\0\x22\x03\x62\0",
        _ => b"",
    };
    [algorithm, key].concat()
}

impl DecodingKey {
    fn new(family: AlgorithmFamily, kind: DecodingKeyKind, read: Read) -> DecodingKey {
        DecodingKey { family, kind, read, kept: Kept::default() }
    }

    fn of_der(family: AlgorithmFamily, key: &[u8]) -> DecodingKey {
        let der = with_algorithm(key);
        let read = match der.first() {
            Some(0x30) => of_family(family, Keys::new(Source::Text, &der)),
            _ => Err(ErrorKind::UnusableKey(NOT_DER.to_string())),
        };
        DecodingKey::new(family, DecodingKeyKind::SecretOrDer(key.to_vec()), read)
    }

    /// Returns the family of algorithms that the key is for.
    #[must_use]
    pub fn family(&self) -> AlgorithmFamily {
        self.family
    }

    /// Returns the bytes of the key.
    #[must_use]
    pub fn kind(&self) -> &DecodingKeyKind {
        &self.kind
    }

    /// Returns a secret as a key, for HS256, HS384 and HS512.
    #[must_use]
    pub fn from_secret(secret: &[u8]) -> Self {
        let (family, kind) = (AlgorithmFamily::Hmac, DecodingKeyKind::SecretOrDer(secret.to_vec()));
        DecodingKey::new(family, kind, of_family(family, Keys::new(Source::Secret, secret)))
    }

    /// Returns a secret as a key, from base64 with padding.
    ///
    /// # Errors
    ///
    /// Another text is [`ErrorKind::Base64`].
    pub fn from_base64_secret(secret: &str) -> Result<Self> {
        Ok(DecodingKey::from_secret(&base64::decode(secret.as_bytes(), STANDARD)?))
    }

    /// Returns a public RSA key as a key, from PEM of a SubjectPublicKeyInfo or an RSAPublicKey, or of a certificate.
    ///
    /// **Nothing of a certificate is verified**, neither a signature nor a name or a date: trust its key only if you trust its source.
    ///
    /// # Errors
    ///
    /// Another text is [`ErrorKind::InvalidKeyFormat`] or [`ErrorKind::UnusableKey`], which says why.
    pub fn from_rsa_pem(key: &[u8]) -> Result<Self> {
        from_pem(AlgorithmFamily::Rsa, key)
    }

    /// Returns a public RSA key as a key, from its modulus and exponent in base64url.
    ///
    /// # Errors
    ///
    /// Another text is [`ErrorKind::Base64`].
    pub fn from_rsa_components(modulus: &str, exponent: &str) -> Result<Self> {
        let [n, e] = [modulus, exponent].map(|it| base64::decode(it.as_bytes(), URL_SAFE));
        Ok(DecodingKey::from_rsa_raw_components(&n?, &e?))
    }

    /// Returns a public RSA key as a key, from its modulus and exponent as big-endian bytes.
    #[must_use]
    pub fn from_rsa_raw_components(modulus: &[u8], exponent: &[u8]) -> Self {
        let [n, e] = [modulus, exponent].map(base64::encode);
        let jwk = serde_json::json!({"kty": "RSA", "n": n, "e": e}).to_string();
        let kind = DecodingKeyKind::RsaModulusExponent { n: modulus.to_vec(), e: exponent.to_vec() };
        let family = AlgorithmFamily::Rsa;
        DecodingKey::new(family, kind, of_family(family, Keys::new(Source::Text, jwk.as_bytes())))
    }

    /// Returns a public key on P-256 or P-384 as a key, from PEM of a SubjectPublicKeyInfo.
    ///
    /// # Errors
    ///
    /// Another text is [`ErrorKind::InvalidKeyFormat`] or [`ErrorKind::UnusableKey`], which says why.
    pub fn from_ec_pem(key: &[u8]) -> Result<Self> {
        from_pem(AlgorithmFamily::Ec, key)
    }

    /// Returns a public key on P-256 or P-384 as a key, from its coordinates in base64url.
    ///
    /// # Errors
    ///
    /// Another text is [`ErrorKind::Base64`].
    pub fn from_ec_components(x: &str, y: &str) -> Result<Self> {
        let [x, y] = [x, y].map(|it| base64::decode(it.as_bytes(), URL_SAFE));
        Ok(DecodingKey::from_ec_der(&[&[4][..], &x?, &y?].concat()))
    }

    /// Returns a public Ed25519 key as a key, from PEM of a SubjectPublicKeyInfo.
    ///
    /// # Errors
    ///
    /// Another text is [`ErrorKind::InvalidKeyFormat`] or [`ErrorKind::UnusableKey`], which says why.
    pub fn from_ed_pem(key: &[u8]) -> Result<Self> {
        from_pem(AlgorithmFamily::Ed, key)
    }

    /// Returns a public RSA key as a key, from DER of an RSAPublicKey or a SubjectPublicKeyInfo.
    #[must_use]
    pub fn from_rsa_der(der: &[u8]) -> Self {
        DecodingKey::of_der(AlgorithmFamily::Rsa, der)
    }

    /// Returns a public key on P-256 or P-384 as a key, from its uncompressed point: the byte 4 and both coordinates. DER of a
    /// SubjectPublicKeyInfo is taken too.
    #[must_use]
    pub fn from_ec_der(der: &[u8]) -> Self {
        DecodingKey::of_der(AlgorithmFamily::Ec, der)
    }

    /// Returns a public Ed25519 key as a key, from its 32 bytes. DER of a SubjectPublicKeyInfo is taken too.
    #[must_use]
    pub fn from_ed_der(der: &[u8]) -> Self {
        DecodingKey::of_der(AlgorithmFamily::Ed, der)
    }

    /// Returns a public Ed25519 key as a key, from its bytes in base64url.
    ///
    /// # Errors
    ///
    /// Another text is [`ErrorKind::Base64`].
    pub fn from_ed_components(x: &str) -> Result<Self> {
        Ok(DecodingKey::from_ed_der(&base64::decode(x.as_bytes(), URL_SAFE)?))
    }

    /// Returns a JSON Web Key as a key. If it has an `alg`, it verifies with that algorithm alone.
    ///
    /// # Errors
    ///
    /// A number or a secret that is not base64url is [`ErrorKind::Base64`], and a key of another kind [`ErrorKind::UnsupportedAlgorithm`].
    /// A key with another `use` than `sig`, a broken key, such as a point that is not on its curve, and a secret that others may know are
    /// [`ErrorKind::UnusableKey`], which says why.
    pub fn from_jwk(jwk: &Jwk) -> Result<Self> {
        let text = KeyBytes(serde_json::to_vec(jwk)?);
        let (family, kind) = jwk.algorithm.shown()?;
        let read = of_family(family, Keys::new(Source::Text, &text.0))?;
        Ok(DecodingKey::new(family, kind, Ok(read)))
    }

    /// Returns the bytes of the key.
    ///
    /// # Errors
    ///
    /// A key of a modulus and an exponent is [`ErrorKind::InvalidKeyFormat`].
    pub fn try_get_as_bytes(&self) -> Result<&[u8]> {
        match &self.kind {
            DecodingKeyKind::SecretOrDer(bytes) => Ok(bytes),
            DecodingKeyKind::RsaModulusExponent { .. } => Err(ErrorKind::InvalidKeyFormat.into()),
        }
    }

    /// Returns the key as the library has read it.
    pub(crate) fn keys(&self) -> Result<&Keys> {
        self.read.as_deref().map_err(|it| it.clone().into())
    }

    /// Returns the verifier of single signatures, with each algorithm that the key is for.
    pub(crate) fn verifier(&self) -> Result<Arc<Verifier>> {
        self.kept.verifier(self, &Validation::new_for_family(self.family))
    }
}

impl fmt::Debug for DecodingKey {
    fn fmt(&self, f: &mut fmt::Formatter<'_>) -> fmt::Result {
        f.debug_struct("DecodingKey").field("family", &self.family).field("kind", &self.kind).finish_non_exhaustive()
    }
}

impl TryFrom<&Jwk> for DecodingKey {
    type Error = Error;

    fn try_from(jwk: &Jwk) -> Result<Self> {
        DecodingKey::from_jwk(jwk)
    }
}

/// Returns the key of a text in PEM, if it is of this family.
fn from_pem(family: AlgorithmFamily, text: &[u8]) -> Result<DecodingKey> {
    let der = pem::first(text).ok_or(ErrorKind::InvalidKeyFormat)?;
    let keys = match Keys::new(Source::Text, text) {
        Err(status::IS_CERTIFICATE) => Keys::new(Source::Certificate, text),
        read => read,
    };
    Ok(DecodingKey::new(family, DecodingKeyKind::SecretOrDer(der), Ok(of_family(family, keys)?)))
}

/// Verifies a token at the time of the system's clock, and returns its header and its claims.
///
/// The key keeps the verifier of the `Validation`: from the second token on, a call with an equal `Validation` is as fast as a
/// [`Verifier`]. In a child process that was forked from a process with several threads it must not be called, nor a key dropped that it
/// was called with.
///
/// ```
/// use jsonwebtoken_proved::{decode, encode, DecodingKey, EncodingKey, Header, Validation};
/// use serde::{Deserialize, Serialize};
///
/// #[derive(Debug, Serialize, Deserialize, PartialEq, Clone)]
/// struct Claims {
///     sub: String,
///     exp: u64,
/// }
///
/// let (secret, claims) = (b"0123456789abcdef0123456789abcdef", Claims { sub: "b@b.com".to_string(), exp: 4102444800 });
/// let token = encode(&Header::default(), &claims, &EncodingKey::from_secret(secret))?;
/// let data = decode::<Claims>(&token, &DecodingKey::from_secret(secret), &Validation::default())?;
/// assert_eq!(data.claims, claims);
/// # Ok::<(), jsonwebtoken_proved::errors::Error>(())
/// ```
///
/// # Errors
///
/// The kind of the error says why a token is refused ([`Error::is_refusal`]). An algorithm of another family than the key's is
/// [`ErrorKind::InvalidAlgorithm`], as in the crate `jsonwebtoken`; a [`Verifier`] accepts a list of several families. It also returns the
/// errors of [`Verifier::new`] and [`Verifier::decode`].
pub fn decode<T: DeserializeOwned>(
    token: impl AsRef<[u8]>,
    key: &DecodingKey,
    validation: &Validation,
) -> Result<TokenData<T>> {
    let token = token.as_ref();
    if validation.insecure_ignores_signature {
        return with_claims_checked(token, validation);
    }
    if validation.algorithms.iter().any(|it| it.family() != key.family) {
        return Err(ErrorKind::InvalidAlgorithm.into());
    }
    key.kept.verifier(key, validation)?.token_data(token, validation::now()?)
}

/// Returns the header and the claims of a token, if its claims pass the rules. The signature is not verified.
fn with_claims_checked<T: DeserializeOwned>(token: &[u8], validation: &Validation) -> Result<TokenData<T>> {
    let (header, claims) = (decode_header(token)?, unverified(token, Part::Payload)?);
    let (options, now) = (validation.options_of_claims(), validation::now()?);
    calls::check_claims(&claims, &options, now).map_err(|it| validation.error(it))?;
    Ok(TokenData { header, claims: serde_json::from_str(&claims)? })
}

/// Returns a part of a token, as JSON of an object. Nothing is verified.
fn unverified(token: &[u8], part: Part) -> Result<String> {
    calls::unverified(token, part).map_err(Error::from_status)
}

/// Returns the header of a token. Nothing is verified.
///
/// # Errors
///
/// A text that is not a token is [`ErrorKind::InvalidToken`] or [`ErrorKind::Base64`]. A header that is not the JSON of a [`Header`], for
/// example with the algorithm `none` or ES512, is [`ErrorKind::Json`].
pub fn decode_header(token: impl AsRef<[u8]>) -> Result<Header> {
    Ok(serde_json::from_str(&unverified(token.as_ref(), Part::Header)?)?)
}

/// Returns the header and the claims of a token. Nothing is verified, neither the signature nor a claim: anyone can have written them.
///
/// # Errors
///
/// It returns the errors of [`decode_header`]. Claims that are not a JSON object, or do not match the type, are [`ErrorKind::Json`].
pub fn insecure_decode<T: DeserializeOwned>(token: impl AsRef<[u8]>) -> Result<TokenData<T>> {
    let token = token.as_ref();
    Ok(TokenData { header: decode_header(token)?, claims: insecure_decode_claims(token)? })
}

/// Returns the claims of a token of any algorithm, also of `none`. Nothing is verified: anyone can have written them. The header is not
/// read.
///
/// # Errors
///
/// A text that is not a token is [`ErrorKind::InvalidToken`] or [`ErrorKind::Base64`]. Claims that are not a JSON object, or do not match
/// the type, are [`ErrorKind::Json`].
pub fn insecure_decode_claims<T: DeserializeOwned>(token: impl AsRef<[u8]>) -> Result<T> {
    Ok(serde_json::from_str(&unverified(token.as_ref(), Part::Payload)?)?)
}
