//! JSON Web Keys, as types that serde reads and writes (RFC 7517).
//!
//! A key is read here, and is judged by the library when it verifies: a point may be on no curve.

use crate::base64::{self, URL_SAFE};
use crate::errors::{Error, ErrorKind, Result};
use crate::header::names;
use crate::library::keys::{KeyBytes, Keys, Source};
use crate::{Algorithm, AlgorithmFamily, DecodingKey, DecodingKeyKind, EncodingKey};
use serde::{Deserialize, Serialize};
use serde_json::Value;
use std::collections::BTreeMap;
use std::fmt;
use std::hash::{Hash, Hasher};
use std::str::FromStr;

names! {
    /// What a public key is for (RFC 7517 section 4.2).
    PublicKeyUse {
        /// Signatures.
        Signature = "sig",
        /// Encryption.
        Encryption = "enc",
    }
}

names! {
    /// What a key may do (RFC 7517 section 4.3).
    KeyOperations {
        /// Makes signatures.
        Sign = "sign",
        /// Verifies signatures.
        Verify = "verify",
        /// Encrypts.
        Encrypt = "encrypt",
        /// Decrypts.
        Decrypt = "decrypt",
        /// Encrypts keys.
        WrapKey = "wrapKey",
        /// Decrypts keys.
        UnwrapKey = "unwrapKey",
        /// Derives keys.
        DeriveKey = "deriveKey",
        /// Derives bits that are no key.
        DeriveBits = "deriveBits",
    }
}

/// The algorithm that a key is for (RFC 7517 section 4.4).
#[allow(non_camel_case_types)]
#[derive(Clone, Copy, Debug, PartialEq, Eq, Hash, Serialize, Deserialize)]
#[non_exhaustive]
pub enum KeyAlgorithm {
    /// HMAC with SHA-256.
    HS256,
    /// HMAC with SHA-384.
    HS384,
    /// HMAC with SHA-512.
    HS512,
    /// ECDSA over P-256 with SHA-256.
    ES256,
    /// ECDSA over P-384 with SHA-384.
    ES384,
    /// RSASSA-PKCS1-v1_5 with SHA-256.
    RS256,
    /// RSASSA-PKCS1-v1_5 with SHA-384.
    RS384,
    /// RSASSA-PKCS1-v1_5 with SHA-512.
    RS512,
    /// RSASSA-PSS with SHA-256.
    PS256,
    /// RSASSA-PSS with SHA-384.
    PS384,
    /// RSASSA-PSS with SHA-512.
    PS512,
    /// EdDSA over Ed25519.
    EdDSA,
    /// Encryption by RSAES-PKCS1-v1_5.
    RSA1_5,
    /// Encryption by RSAES-OAEP with SHA-1.
    #[serde(rename = "RSA-OAEP")]
    RSA_OAEP,
    /// Encryption by RSAES-OAEP with SHA-256.
    #[serde(rename = "RSA-OAEP-256")]
    RSA_OAEP_256,
    /// Another algorithm.
    #[serde(other)]
    UNKNOWN_ALGORITHM,
}

impl From<Algorithm> for KeyAlgorithm {
    fn from(algorithm: Algorithm) -> KeyAlgorithm {
        algorithm.to_string().parse().expect("a key can be for each algorithm")
    }
}

/// Returns the algorithm of tokens. One of encryption, or an unknown one, is [`ErrorKind::UnsupportedAlgorithm`].
impl TryFrom<KeyAlgorithm> for Algorithm {
    type Error = Error;

    fn try_from(algorithm: KeyAlgorithm) -> Result<Algorithm> {
        algorithm.to_string().parse().map_err(|_| ErrorKind::UnsupportedAlgorithm.into())
    }
}

/// Reads the name of an algorithm. Another name is [`ErrorKind::InvalidAlgorithmName`].
impl FromStr for KeyAlgorithm {
    type Err = Error;

    fn from_str(name: &str) -> Result<KeyAlgorithm> {
        match serde_json::from_value(Value::from(name)) {
            Ok(KeyAlgorithm::UNKNOWN_ALGORITHM) | Err(_) => Err(ErrorKind::InvalidAlgorithmName.into()),
            Ok(found) => Ok(found),
        }
    }
}

impl fmt::Display for KeyAlgorithm {
    fn fmt(&self, f: &mut fmt::Formatter<'_>) -> fmt::Result {
        fmt::Debug::fmt(self, f)
    }
}

/// The members that keys of all kinds have (RFC 7517 section 4).
#[derive(Clone, Debug, Default, PartialEq, Eq, Hash, Serialize, Deserialize)]
pub struct CommonParameters {
    /// What the key is for, `use`.
    #[serde(rename = "use", default, skip_serializing_if = "Option::is_none")]
    pub public_key_use: Option<PublicKeyUse>,
    /// What the key may do, `key_ops`.
    #[serde(rename = "key_ops", default, skip_serializing_if = "Option::is_none")]
    pub key_operations: Option<Vec<KeyOperations>>,
    /// The algorithm that the key is for, `alg`.
    #[serde(rename = "alg", default, skip_serializing_if = "Option::is_none")]
    pub key_algorithm: Option<KeyAlgorithm>,
    /// The id of the key, `kid`.
    #[serde(rename = "kid", default, skip_serializing_if = "Option::is_none")]
    pub key_id: Option<String>,
    /// The address of certificates, `x5u`.
    #[serde(rename = "x5u", default, skip_serializing_if = "Option::is_none")]
    pub x509_url: Option<String>,
    /// Certificates, `x5c`.
    #[serde(rename = "x5c", default, skip_serializing_if = "Option::is_none")]
    pub x509_chain: Option<Vec<String>>,
    /// The thumbprint of a certificate by SHA-1, `x5t`.
    #[serde(rename = "x5t", default, skip_serializing_if = "Option::is_none")]
    pub x509_sha1_fingerprint: Option<String>,
    /// The thumbprint of a certificate by SHA-256, `x5t#S256`.
    #[serde(rename = "x5t#S256", default, skip_serializing_if = "Option::is_none")]
    pub x509_sha256_fingerprint: Option<String>,
}

/// The `kty` of keys on a curve for ECDSA.
#[derive(Clone, Copy, Debug, Default, PartialEq, Eq, Hash, Serialize, Deserialize)]
pub enum EllipticCurveKeyType {
    /// `EC`.
    #[default]
    EC,
}

/// A curve (RFC 7518 section 6.2.1.1, RFC 8037 section 2).
#[derive(Clone, Debug, Default, PartialEq, Eq, Hash, Serialize, Deserialize)]
#[non_exhaustive]
pub enum EllipticCurve {
    /// P-256.
    #[default]
    #[serde(rename = "P-256")]
    P256,
    /// P-384.
    #[serde(rename = "P-384")]
    P384,
    /// P-521, which verifies no token.
    #[serde(rename = "P-521")]
    P521,
    /// Ed25519.
    Ed25519,
}

/// A key on a curve for ECDSA (RFC 7518 section 6.2.1).
#[derive(Clone, Debug, Default, PartialEq, Eq, Hash, Serialize, Deserialize)]
pub struct EllipticCurveKeyParameters {
    /// The `kty`.
    #[serde(rename = "kty")]
    pub key_type: EllipticCurveKeyType,
    /// The curve, `crv`.
    #[serde(rename = "crv")]
    pub curve: EllipticCurve,
    /// The coordinate x, in base64url.
    pub x: String,
    /// The coordinate y, in base64url.
    pub y: String,
}

/// The `kty` of RSA keys.
#[derive(Clone, Copy, Debug, Default, PartialEq, Eq, Hash, Serialize, Deserialize)]
pub enum RSAKeyType {
    /// `RSA`.
    #[default]
    RSA,
}

/// A public RSA key (RFC 7518 section 6.3.1).
#[derive(Clone, Debug, Default, PartialEq, Eq, Hash, Serialize, Deserialize)]
pub struct RSAKeyParameters {
    /// The `kty`.
    #[serde(rename = "kty")]
    pub key_type: RSAKeyType,
    /// The modulus, in base64url.
    pub n: String,
    /// The exponent, in base64url.
    pub e: String,
}

/// The `kty` of secrets.
#[derive(Clone, Copy, Debug, Default, PartialEq, Eq, Hash, Serialize, Deserialize)]
pub enum OctetKeyType {
    /// `oct`.
    #[default]
    #[serde(rename = "oct")]
    Octet,
}

/// A secret (RFC 7518 section 6.4), which `Debug` does not show.
#[derive(Clone, Default, PartialEq, Eq, Hash, Serialize, Deserialize)]
pub struct OctetKeyParameters {
    /// The `kty`.
    #[serde(rename = "kty")]
    pub key_type: OctetKeyType,
    /// The secret, `k`, in base64url.
    #[serde(rename = "k")]
    pub value: String,
}

impl fmt::Debug for OctetKeyParameters {
    fn fmt(&self, f: &mut fmt::Formatter<'_>) -> fmt::Result {
        f.debug_struct("OctetKeyParameters").field("key_type", &self.key_type).field("value", &"[redacted]").finish()
    }
}

/// The `kty` of keys on a curve for EdDSA.
#[derive(Clone, Copy, Debug, Default, PartialEq, Eq, Hash, Serialize, Deserialize)]
pub enum OctetKeyPairType {
    /// `OKP`.
    #[default]
    #[serde(rename = "OKP")]
    OctetKeyPair,
}

/// A public key for EdDSA (RFC 8037 section 2).
#[derive(Clone, Debug, Default, PartialEq, Eq, Hash, Serialize, Deserialize)]
pub struct OctetKeyPairParameters {
    /// The `kty`.
    #[serde(rename = "kty")]
    pub key_type: OctetKeyPairType,
    /// The curve, `crv`.
    #[serde(rename = "crv")]
    pub curve: EllipticCurve,
    /// The key, in base64url.
    pub x: String,
}

/// A key of another kind. `Debug` shows only the names of its members.
#[derive(Clone, Default, PartialEq, Eq, Serialize, Deserialize)]
pub struct OtherKeyParameters {
    /// Its members.
    #[serde(flatten)]
    pub fields: BTreeMap<String, Value>,
}

impl fmt::Debug for OtherKeyParameters {
    fn fmt(&self, f: &mut fmt::Formatter<'_>) -> fmt::Result {
        f.debug_set().entries(self.fields.keys()).finish()
    }
}

/// Hashes the names: values of JSON have no hash.
impl Hash for OtherKeyParameters {
    fn hash<H: Hasher>(&self, state: &mut H) {
        self.fields.keys().for_each(|it| it.hash(state));
    }
}

/// The members that keys of one kind have.
#[derive(Clone, Debug, PartialEq, Eq, Hash, Serialize, Deserialize)]
#[serde(untagged)]
#[non_exhaustive]
pub enum AlgorithmParameters {
    /// A key on a curve for ECDSA.
    EllipticCurve(EllipticCurveKeyParameters),
    /// An RSA key.
    RSA(RSAKeyParameters),
    /// A secret.
    OctetKey(OctetKeyParameters),
    /// A key for EdDSA.
    OctetKeyPair(OctetKeyPairParameters),
    /// A key of another kind, or one that lacks a member.
    Other(OtherKeyParameters),
}

impl AlgorithmParameters {
    /// Returns the family and the bytes that a [`DecodingKey`] of the key shows.
    pub(crate) fn shown(&self) -> Result<(AlgorithmFamily, DecodingKeyKind)> {
        let bytes = |text: &String| base64::decode(text.as_bytes(), URL_SAFE);
        let (family, bytes) = match self {
            AlgorithmParameters::RSA(it) => {
                let (n, e) = (bytes(&it.n)?, bytes(&it.e)?);
                return Ok((AlgorithmFamily::Rsa, DecodingKeyKind::RsaModulusExponent { n, e }));
            }
            AlgorithmParameters::EllipticCurve(it) => {
                (AlgorithmFamily::Ec, [vec![4], bytes(&it.x)?, bytes(&it.y)?].concat())
            }
            AlgorithmParameters::OctetKeyPair(it) => (AlgorithmFamily::Ed, bytes(&it.x)?),
            AlgorithmParameters::OctetKey(it) => (AlgorithmFamily::Hmac, bytes(&it.value)?),
            AlgorithmParameters::Other(_) => return Err(ErrorKind::UnsupportedAlgorithm.into()),
        };
        Ok((family, DecodingKeyKind::SecretOrDer(bytes)))
    }
}

/// The hash of a thumbprint.
#[derive(Clone, Debug, PartialEq, Eq)]
#[non_exhaustive]
pub enum ThumbprintHash {
    /// SHA-256.
    SHA256 = 256,
    /// SHA-384.
    SHA384 = 384,
    /// SHA-512.
    SHA512 = 512,
}

/// A JSON Web Key (RFC 7517 section 4).
#[derive(Clone, Debug, PartialEq, Eq, Hash, Serialize, Deserialize)]
pub struct Jwk {
    /// The members that keys of all kinds have.
    #[serde(flatten)]
    pub common: CommonParameters,
    /// The members of the key's kind.
    #[serde(flatten)]
    pub algorithm: AlgorithmParameters,
}

impl Jwk {
    /// Returns whether the key is for an algorithm of tokens: a key without `alg` is not.
    #[must_use]
    pub fn is_supported(&self) -> bool {
        self.common.key_algorithm.map_or(false, |it| Algorithm::try_from(it).is_ok())
    }

    /// Returns the public key, or the secret, of a key that signs, for this algorithm.
    ///
    /// # Errors
    ///
    /// An algorithm of another family is [`ErrorKind::InvalidAlgorithm`]. The public half of a private key needs the feature `openssl`, and
    /// is [`ErrorKind::Provider`] without it.
    pub fn from_encoding_key(key: &EncodingKey, alg: Algorithm) -> Result<Self> {
        if key.family() != alg.family() {
            return Err(ErrorKind::InvalidAlgorithm.into());
        }
        match key.family() {
            AlgorithmFamily::Hmac => Jwk::from_decoding_key(&DecodingKey::from_secret(key.as_bytes()), Some(alg)),
            _ => Jwk::from_decoding_key(key.private()?.public(), Some(alg)),
        }
    }

    /// Returns the JSON Web Key of a key that verifies, for this algorithm, if any.
    ///
    /// # Errors
    ///
    /// An algorithm of another family is [`ErrorKind::InvalidAlgorithm`]; a key that can't be read is the error that it is when it
    /// verifies.
    pub fn from_decoding_key(key: &DecodingKey, alg: Option<Algorithm>) -> Result<Self> {
        if alg.map_or(false, |it| it.family() != key.family()) {
            return Err(ErrorKind::InvalidAlgorithm.into());
        }
        let text = key.keys()?.text().map_err(Error::from_key_status)?;
        let algorithm = serde_json::from_slice(&text.0)?;
        let common = CommonParameters { key_algorithm: alg.map(KeyAlgorithm::from), ..CommonParameters::default() };
        Ok(Jwk { common, algorithm })
    }

    /// Returns the thumbprint of the key (RFC 7638).
    ///
    /// # Errors
    ///
    /// A key of a kind without a thumbprint is [`ErrorKind::UnsupportedAlgorithm`], and one whose curve is not of its kind is
    /// [`ErrorKind::InvalidKeyFormat`].
    #[allow(clippy::needless_pass_by_value)] // as in the crate jsonwebtoken
    pub fn thumbprint(&self, hash_function: ThumbprintHash) -> Result<String> {
        // a key of a set has a thumbprint also if no token is verified with it
        let set = KeyBytes(serde_json::to_vec(&BTreeMap::from([("keys", [self])]))?);
        Keys::new(Source::Text, &set.0)
            .and_then(|it| it.thumbprint(hash_function as u32))
            .map_err(Error::from_key_status)
    }
}

/// A set of JSON Web Keys (RFC 7517 section 5).
#[derive(Clone, Debug, Default, PartialEq, Eq, Hash, Serialize, Deserialize)]
pub struct JwkSet {
    /// The keys.
    pub keys: Vec<Jwk>,
}

impl JwkSet {
    /// Returns the first key with this `kid`.
    #[must_use]
    pub fn find(&self, kid: &str) -> Option<&Jwk> {
        self.keys.iter().find(|it| it.common.key_id.as_deref() == Some(kid))
    }
}
