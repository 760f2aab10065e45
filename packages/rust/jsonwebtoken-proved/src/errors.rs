//! The errors of all calls.

use crate::base64::Base64Error;
use crate::library::calls::{self, Of};
use crate::library::keys::{self, SkippedKey};
use crate::{Algorithm, status};
use serde::de::Error as _;
use std::error::Error as StdError;
use std::fmt;
use std::string::FromUtf8Error;
use std::sync::Arc;

/// The result of a call that can fail.
pub type Result<T> = std::result::Result<T, Error>;

/// Why there is no result.
#[derive(Clone, Debug, Eq, PartialEq)]
pub struct Error(Box<ErrorKind>);

impl Error {
    /// Returns the kind of the error.
    #[must_use]
    pub fn kind(&self) -> &ErrorKind {
        &self.0
    }

    /// Returns the kind of the error, without the error.
    #[must_use]
    pub fn into_kind(self) -> ErrorKind {
        *self.0
    }

    /// Returns whether a call that verifies has refused the token: respond with 401. Any other error is about a key, an argument or an
    /// outage, and not about the token.
    #[must_use]
    pub fn is_refusal(&self) -> bool {
        matches!(
            self.kind(),
            ErrorKind::InvalidToken
                | ErrorKind::InvalidSignature
                | ErrorKind::InvalidAlgorithmName
                | ErrorKind::InvalidAlgorithm
                | ErrorKind::MissingRequiredClaim(_)
                | ErrorKind::InvalidClaimFormat(_)
                | ErrorKind::ExpiredSignature
                | ErrorKind::ImmatureSignature
                | ErrorKind::InvalidIssuer
                | ErrorKind::InvalidAudience
                | ErrorKind::InvalidSubject
                | ErrorKind::Base64(_)
                | ErrorKind::Json(_)
                | ErrorKind::Utf8(_)
                | ErrorKind::InvalidCrit
                | ErrorKind::NoKey
                | ErrorKind::TokenTooLong
        )
    }

    /// Returns the error of a status of `jwtproved.h`.
    pub(crate) fn from_status(status: u32) -> Error {
        kind_of(status).into()
    }

    /// Returns the error of a status of a call that issues a token.
    pub(crate) fn from_issue_status(status: u32) -> Error {
        match status {
            status::BAD_CLAIMS => json_error("claims to sign must be an object with each name once").into(),
            status::BAD_HEADER => json_error("the header has a float, a name twice, or a malformed member").into(),
            _ => Error::from_status(status),
        }
    }

    /// Returns the error of a status of a call that tests a signature with this algorithm.
    pub(crate) fn from_signature_status(status: u32, algorithm: Algorithm) -> Error {
        match status {
            status::INVALID_ALGORITHM | status::INVALID_KEY_FORMAT => {
                ErrorKind::UnusableKey(format!("it does not verify with {algorithm}")).into()
            }
            status::INVALID_SIGNATURE => {
                ErrorKind::Signing("the signature does not verify by the public key".to_string()).into()
            }
            _ => Error::from_status(status),
        }
    }

    /// Returns the error of a status of a call that reads a key and no token.
    pub(crate) fn from_key_status(status: u32) -> Error {
        match kind_of(status) {
            ErrorKind::Provider(_) => ErrorKind::UnusableKey("it is a private key".to_string()),
            ErrorKind::InvalidToken => ErrorKind::UnusableKey(text_of(status)),
            ErrorKind::Base64(_) => ErrorKind::Base64(Base64Error::OF_KEY),
            kind => kind,
        }
        .into()
    }

    /// Returns the error of a status of a call that reads a key set.
    pub(crate) fn from_set_status(status: u32) -> Error {
        match status {
            status::BAD_KEY => ErrorKind::UnusableKey(NOT_A_SET.to_string()).into(),
            _ => Error::from_key_status(status),
        }
    }

    /// Returns the error of keys that fit no algorithm, with the reasons of the skipped ones.
    pub(crate) fn no_usable_key(skipped: &[SkippedKey]) -> Error {
        let why = format!("{}, and of a set only keys with a kid count", text_of(status::NO_USABLE_KEY));
        let reasons = keys::reasons(skipped);
        ErrorKind::UnusableKey(if skipped.is_empty() { why } else { format!("{why}; {reasons}") }).into()
    }
}

const NOT_A_SET: &str = "it is not a JSON Web Key Set; DecodingKey reads one key, as JSON or PEM";

fn text_of(status: u32) -> String {
    calls::text_of(Of::Status, status).unwrap_or_default()
}

/// Returns an error of JSON that the library does not take.
fn json_error(text: impl fmt::Display) -> ErrorKind {
    ErrorKind::Json(Arc::new(serde_json::Error::custom(text)))
}

/// The claims with a status each, in the order of the statuses.
const CLAIMS: [&str; 5] = ["exp", "nbf", "aud", "iss", "sub"];

fn kind_of(status: u32) -> ErrorKind {
    let claim = |first: u32| CLAIMS[(status - first) as usize].to_string();
    match status {
        status::INVALID_SIGNATURE => ErrorKind::InvalidSignature,
        status::SIGNING => ErrorKind::Signing("the signature does not have a length of its algorithm".to_string()),
        status::INVALID_ALGORITHM_NAME => ErrorKind::InvalidAlgorithmName,
        status::UNSUPPORTED_ALGORITHM => ErrorKind::UnsupportedAlgorithm,
        status::INVALID_KEY_FORMAT => ErrorKind::InvalidKeyFormat,
        status::INVALID_ALGORITHM => ErrorKind::InvalidAlgorithm,
        status::EXPIRED_SIGNATURE => ErrorKind::ExpiredSignature,
        status::IMMATURE_SIGNATURE => ErrorKind::ImmatureSignature,
        status::INVALID_ISSUER => ErrorKind::InvalidIssuer,
        status::INVALID_AUDIENCE => ErrorKind::InvalidAudience,
        status::INVALID_SUBJECT => ErrorKind::InvalidSubject,
        status::MISSING_EXP..=status::MISSING_SUB => ErrorKind::MissingRequiredClaim(claim(status::MISSING_EXP)),
        status::MALFORMED_EXP..=status::MALFORMED_SUB => ErrorKind::InvalidClaimFormat(claim(status::MALFORMED_EXP)),
        status::BASE64 => ErrorKind::Base64(Base64Error::OF_TOKEN),
        status::JSON => json_error("the header is not one, or the claims are not an object"),
        status::PROVIDER => ErrorKind::Provider(text_of(status)),
        status::INVALID_CRIT => ErrorKind::InvalidCrit,
        status::NO_KEY => ErrorKind::NoKey,
        status::TOKEN_TOO_LONG => ErrorKind::TokenTooLong,
        status::OUT_OF_MEMORY => ErrorKind::OutOfMemory,
        status::BAD_KEY
        | status::ALL_ZERO_SECRET
        | status::KEY_AS_SECRET
        | status::NOT_FOR_SIGNATURES
        | status::IS_CERTIFICATE
        | status::UNFIT_KEY => ErrorKind::UnusableKey(text_of(status)),
        status::BUFFER_TOO_SMALL.. => ErrorKind::InvalidArgument(text_of(status)),
        _ => ErrorKind::InvalidToken,
    }
}

/// The kind of an [`Error`].
#[derive(Clone, Debug)]
#[non_exhaustive]
pub enum ErrorKind {
    /// The text is not a token: it does not have three parts with dots between them, or its `exp` is 0.
    InvalidToken,
    /// The key did not sign this token.
    InvalidSignature,
    /// The key is not one for ECDSA.
    InvalidEcdsaKey,
    /// The key is not one for EdDSA.
    InvalidEddsaKey,
    /// The key is not one for RSA: the reason.
    InvalidRsaKey(String),
    /// The signing with an RSA key failed.
    RsaFailedSigning,
    /// The signing failed, or gave a signature that does not verify: the reason.
    Signing(String),
    /// No algorithm has this name.
    InvalidAlgorithmName,
    /// The key is of a kind that is not supported.
    UnsupportedAlgorithm,
    /// The key can't be read, or does not serve.
    InvalidKeyFormat,
    /// A required claim is missing or malformed: its name.
    MissingRequiredClaim(String),
    /// A claim that is checked is malformed: its name.
    InvalidClaimFormat(String),
    /// The `exp` is not after now, less the leeway (RFC 7519 section 4.1.4).
    ExpiredSignature,
    /// The `iss` is not an accepted issuer.
    InvalidIssuer,
    /// The `aud` does not name an accepted audience.
    InvalidAudience,
    /// The `sub` is another.
    InvalidSubject,
    /// The `nbf`, or the `iat`, is after now and the leeway (RFC 7519 sections 4.1.5 and 4.1.6). If it is the `iat`, the failed test is
    /// `FurtherRulesHold`.
    ImmatureSignature,
    /// The token's algorithm is not accepted, or the key is of another family.
    InvalidAlgorithm,
    /// No algorithm is accepted.
    MissingAlgorithm,
    /// A text is not base64, or a part of a token not base64url.
    Base64(Base64Error),
    /// The header or the claims can't be read or written, or do not match the type.
    Json(Arc<serde_json::Error>),
    /// A text is not UTF-8.
    Utf8(FromUtf8Error),
    /// There is no signer for the algorithm, or it can't sign this: the reason.
    Provider(String),
    /// The header's `crit` names a member that is not understood (RFC 7515 section 4.1.11).
    InvalidCrit,
    /// The header names no key of the set.
    NoKey,
    /// The token is longer than the verifier allows.
    TokenTooLong,
    /// The key does not serve, or is a secret that others may know: the reason.
    UnusableKey(String),
    /// An argument is not understood: the text says which one.
    InvalidArgument(String),
    /// A set of keys can't be fetched: the error of the closure that fetches it, for example.
    Fetch(Cause),
    /// The set of keys lacks the token's key and is being fetched, so that a later call may have it.
    Fetching,
    /// Memory ran out in the library, so that the verification did not finish.
    OutOfMemory,
    /// The system's clock is before 1970-01-01 00:00:00 UTC, so that no token can be judged.
    ClockBeforeEpoch,
}

/// Compares the texts of `Debug`.
impl PartialEq for ErrorKind {
    fn eq(&self, other: &ErrorKind) -> bool {
        format!("{self:?}") == format!("{other:?}")
    }
}

impl Eq for ErrorKind {}

/// Writes the name of the kind, or a text and what the kind holds. The error that a kind holds is the source.
impl fmt::Display for Error {
    fn fmt(&self, f: &mut fmt::Formatter<'_>) -> fmt::Result {
        match self.kind() {
            ErrorKind::MissingRequiredClaim(name) => write!(f, "Missing required claim: {name}"),
            ErrorKind::InvalidClaimFormat(name) => write!(f, "Invalid format for claim: {name}"),
            ErrorKind::InvalidRsaKey(why) => write!(f, "RSA key invalid: {why}"),
            ErrorKind::Signing(why) => write!(f, "Signing failed: {why}"),
            ErrorKind::Provider(why) => write!(f, "Custom provider error: {why}"),
            ErrorKind::UnusableKey(why) => write!(f, "Unusable key: {why}"),
            ErrorKind::InvalidArgument(why) => write!(f, "Invalid argument: {why}"),
            ErrorKind::Base64(_) => f.write_str("Base64 error"),
            ErrorKind::Json(_) => f.write_str("JSON error"),
            ErrorKind::Utf8(_) => f.write_str("UTF-8 error"),
            ErrorKind::Fetch(_) => f.write_str("Key set not fetched"),
            kind => write!(f, "{kind:?}"),
        }
    }
}

impl StdError for Error {
    fn source(&self) -> Option<&(dyn StdError + 'static)> {
        match self.kind() {
            ErrorKind::Base64(error) => Some(error),
            ErrorKind::Json(error) => Some(&**error),
            ErrorKind::Utf8(error) => Some(error),
            ErrorKind::Fetch(cause) => Some(cause.get()),
            _ => None,
        }
    }
}

impl From<ErrorKind> for Error {
    fn from(kind: ErrorKind) -> Error {
        Error(Box::new(kind))
    }
}

impl From<serde_json::Error> for Error {
    fn from(error: serde_json::Error) -> Error {
        ErrorKind::Json(Arc::new(error)).into()
    }
}

impl From<FromUtf8Error> for Error {
    fn from(error: FromUtf8Error) -> Error {
        ErrorKind::Utf8(error).into()
    }
}

impl From<Base64Error> for Error {
    fn from(error: Base64Error) -> Error {
        ErrorKind::Base64(error).into()
    }
}

/// The error of another crate that an [`ErrorKind::Fetch`] comes from.
#[derive(Clone, Debug)]
pub struct Cause(Arc<dyn StdError + Send + Sync>);

impl Cause {
    pub(crate) fn new(error: impl Into<Box<dyn StdError + Send + Sync>>) -> Cause {
        Cause(Arc::from(error.into()))
    }

    /// Returns the error itself.
    #[must_use]
    pub fn get(&self) -> &(dyn StdError + Send + Sync + 'static) {
        &*self.0
    }
}

impl fmt::Display for Cause {
    fn fmt(&self, f: &mut fmt::Formatter<'_>) -> fmt::Result {
        fmt::Display::fmt(&self.0, f)
    }
}
