//! The algorithms, and their families.

use crate::errors::{Error, ErrorKind};
use crate::library::calls::{self, Of};
use serde::{Deserialize, Serialize};
use std::fmt;
use std::str::FromStr;

/// A family of algorithms, which have keys of one kind.
#[derive(Clone, Copy, Debug, PartialEq, Eq, Hash, Serialize, Deserialize)]
pub enum AlgorithmFamily {
    /// HMAC, by a secret.
    Hmac,
    /// RSA.
    Rsa,
    /// ECDSA, over P-256 or P-384.
    Ec,
    /// EdDSA, over Ed25519.
    Ed,
}

impl AlgorithmFamily {
    /// Returns the algorithms of the family.
    #[must_use]
    pub fn algorithms(&self) -> &[Algorithm] {
        match self {
            AlgorithmFamily::Hmac => &Algorithm::ALL[..3],
            AlgorithmFamily::Rsa => &Algorithm::ALL[3..9],
            AlgorithmFamily::Ec => &Algorithm::ALL[9..11],
            AlgorithmFamily::Ed => &Algorithm::ALL[11..],
        }
    }
}

/// An algorithm (RFC 7518 section 3.1, RFC 8037 section 3.1).
#[derive(Clone, Copy, Debug, Default, PartialEq, Eq, Hash, Serialize, Deserialize)]
#[non_exhaustive]
pub enum Algorithm {
    /// HMAC with SHA-256.
    #[default]
    HS256,
    /// HMAC with SHA-384.
    HS384,
    /// HMAC with SHA-512.
    HS512,
    /// ECDSA over P-256 with SHA-256.
    ES256,
    /// ECDSA over P-384 with SHA-384.
    ES384,
    /// RSASSA-PKCS1-v1_5 with SHA-256.
    RS256,
    /// RSASSA-PKCS1-v1_5 with SHA-384.
    RS384,
    /// RSASSA-PKCS1-v1_5 with SHA-512.
    RS512,
    /// RSASSA-PSS with SHA-256.
    PS256,
    /// RSASSA-PSS with SHA-384.
    PS384,
    /// RSASSA-PSS with SHA-512.
    PS512,
    /// EdDSA over Ed25519.
    EdDSA,
}

impl Algorithm {
    /// All algorithms, family by family.
    pub const ALL: &'static [Algorithm] = &[
        Algorithm::HS256,
        Algorithm::HS384,
        Algorithm::HS512,
        Algorithm::RS256,
        Algorithm::RS384,
        Algorithm::RS512,
        Algorithm::PS256,
        Algorithm::PS384,
        Algorithm::PS512,
        Algorithm::ES256,
        Algorithm::ES384,
        Algorithm::EdDSA,
    ];

    /// Returns the family of the algorithm.
    #[must_use]
    pub fn family(self) -> AlgorithmFamily {
        match self {
            Algorithm::HS256 | Algorithm::HS384 | Algorithm::HS512 => AlgorithmFamily::Hmac,
            Algorithm::ES256 | Algorithm::ES384 => AlgorithmFamily::Ec,
            Algorithm::EdDSA => AlgorithmFamily::Ed,
            _ => AlgorithmFamily::Rsa,
        }
    }

    /// Returns the number of the algorithm in `jwtproved.h`.
    pub(crate) fn number(self) -> u32 {
        calls::algorithm(&self.to_string())
    }

    /// Returns the algorithm's bit in the set of algorithms of a key.
    pub(crate) fn bit(self) -> u32 {
        1 << self.number()
    }

    pub(crate) fn from_number(number: u32) -> Result<Algorithm, Error> {
        calls::text_of(Of::Algorithm, number).map_err(Error::from_status)?.parse()
    }
}

impl fmt::Display for Algorithm {
    fn fmt(&self, f: &mut fmt::Formatter<'_>) -> fmt::Result {
        // the variants have the names of the algorithms
        fmt::Debug::fmt(self, f)
    }
}

/// Reads the name of an algorithm. Another name is [`ErrorKind::InvalidAlgorithmName`].
impl FromStr for Algorithm {
    type Err = Error;

    fn from_str(name: &str) -> Result<Algorithm, Error> {
        let found = Algorithm::ALL.iter().copied().find(|it| it.to_string() == name);
        found.ok_or_else(|| ErrorKind::InvalidAlgorithmName.into())
    }
}
