//! Keys and conditions, read once to verify many tokens.

use crate::errors::{Error, ErrorKind, Result};
use crate::library::calls::{self, Of};
use crate::library::handle::{Handle, Verdict};
use crate::library::keys::{Keys, SkippedKey, Source};
use crate::library::lock;
use crate::validation::{self, argument};
use crate::{Algorithm, DecodingKey, Header, TokenData, Validation, decode_header, status};
use serde::de::DeserializeOwned;
use std::fmt;
use std::sync::{Arc, Mutex};

/// What verifying a token gives.
pub(crate) type Answer<T> = std::result::Result<Verified<T>, Refusal>;

/// A token that a [`Verifier`] accepted. [`decode_header`](crate::decode_header) returns its header.
#[derive(Clone, Debug, PartialEq, Eq)]
#[non_exhaustive]
pub struct Verified<T> {
    /// The claims.
    pub claims: T,
    /// The last time when the token is accepted, in seconds since 1970-01-01 00:00:00 UTC, so that an answer may be kept until then;
    /// `u64::MAX` stands for all times after it too.
    pub accepted_until: u64,
}

impl Verified<String> {
    /// Returns the claims as a type.
    pub(crate) fn typed<T: DeserializeOwned>(&self) -> Answer<T> {
        let claims = serde_json::from_str(&self.claims).map_err(Error::from)?;
        Ok(Verified { claims, accepted_until: self.accepted_until })
    }
}

/// Why a [`Verifier`] does not accept a token.
#[derive(Clone, Debug, PartialEq, Eq)]
#[non_exhaustive]
pub struct Refusal {
    /// The error.
    pub error: Error,
    pub(crate) test: u32,
    /// Whether the token has a `kid` that a set lacks.
    pub(crate) has_kid: bool,
}

impl Refusal {
    /// Returns the name of the first test that the token failed, such as `SignatureIsAccepted`, or `None` if no test was made, for example
    /// since the token is too long. The library's documentation lists the names.
    ///
    /// The name is for a log: do not send it to the client.
    #[must_use]
    pub fn failed_test(&self) -> Option<String> {
        calls::text_of(Of::Test, self.test).ok()
    }
}

impl From<Error> for Refusal {
    fn from(error: Error) -> Refusal {
        Refusal { error, test: 0, has_kid: false }
    }
}

impl From<Refusal> for Error {
    fn from(refusal: Refusal) -> Error {
        refusal.error
    }
}

impl fmt::Display for Refusal {
    fn fmt(&self, f: &mut fmt::Formatter<'_>) -> fmt::Result {
        self.error.fmt(f)
    }
}

impl std::error::Error for Refusal {
    /// Returns the source of the refusal's error, whose text the refusal has.
    fn source(&self) -> Option<&(dyn std::error::Error + 'static)> {
        self.error.source()
    }
}

/// A key or a key set, and the conditions on a token, which are read once and verify many tokens. Any number of threads may use it at the
/// same time.
///
/// The algorithms may be of several families. A key verifies with the listed algorithms of the key's family, so one verifier accepts the
/// tokens of a key set with RSA, EC and Ed25519 keys. The token's `alg` selects neither the key nor the family.
///
/// It must not be used in a child process that was forked from a process with several threads.
///
/// ```
/// use jsonwebtoken_proved::errors::{Error, ErrorKind};
/// use jsonwebtoken_proved::{Algorithm, DecodingKey, Validation, Verifier};
///
/// let key = DecodingKey::from_secret(b"0123456789abcdef0123456789abcdef");
/// let verifier = Verifier::new(&key, &Validation::strict(Algorithm::HS256))?;
/// let refusal = verifier.decode_json("eyJhbGciOiJIUzI1NiJ9.e30.AAAA", 1700000000).unwrap_err();
/// assert_eq!(refusal.error.kind(), &ErrorKind::InvalidSignature);
/// assert_eq!(refusal.failed_test().as_deref(), Some("SignatureIsAccepted"));
/// # Ok::<(), Error>(())
/// ```
pub struct Verifier {
    readers: Mutex<Readers>,
    /// Those of each verifier that the library numbers: one, or those of [`Verifier::by_issuer`].
    pub(crate) validations: Vec<Validation>,
    skipped: Arc<[SkippedKey]>,
    /// The verifiers of [`Verifier::by_issuer`].
    pub(crate) of_issuers: Vec<Arc<Verifier>>,
}

/// Handles of the library with the same keys and options. Each call has one, shared from the first and kept for the next call.
struct Readers {
    /// It is only shared, and verifies nothing.
    first: Handle,
    /// Those that no call has now.
    idle: Vec<Reader>,
}

/// A handle, and the last header that it read, with the header part of the token and its dot: the next token mostly has the same header.
struct Reader {
    handle: Handle,
    last: Option<Box<(Vec<u8>, Header)>>,
}

impl Reader {
    /// Returns the header of an accepted token. Its header part ends at the first dot.
    fn header(&mut self, token: &[u8]) -> Result<Header> {
        if let Some(last) = self.last.as_ref().filter(|it| token.starts_with(&it.0)) {
            return Ok(last.1.clone());
        }
        let part = token.split_inclusive(|it| *it == b'.').next().unwrap_or_default();
        let header = decode_header(token)?;
        self.last = Some(Box::new((part.to_vec(), header.clone())));
        Ok(header)
    }
}

impl Verifier {
    /// Returns the verifier of a key and conditions, for tokens of at most 1 MiB.
    ///
    /// # Errors
    ///
    /// A key that fits none of the algorithms, or a secret that others may know, is [`ErrorKind::UnusableKey`]; an error that the key was
    /// made with is returned. Invalid conditions are [`ErrorKind::InvalidArgument`], and no algorithm is [`ErrorKind::MissingAlgorithm`].
    pub fn new(key: &DecodingKey, validation: &Validation) -> Result<Verifier> {
        Verifier::made(key.keys()?, validation, 0, 0)
    }

    /// Returns the verifier of a JSON Web Key Set (RFC 7517 section 5) and conditions. The token's `kid` selects the key. A key with an
    /// `alg` verifies tokens of that algorithm alone. An unusable key is skipped: log [`Verifier::skipped`].
    ///
    /// ```
    /// use jsonwebtoken_proved::{Algorithm, Validation, Verifier};
    ///
    /// # let set = r#"{"keys":[{"kty":"OKP","kid":"a","crv":"Ed25519","x":"11qYAYKxCrfVS_7TyWQHOg7hcvPapiMlrwIaaPcHURo"}]}"#;
    /// let mut validation = Validation::strict(Algorithm::RS256);
    /// validation.algorithms = vec![Algorithm::RS256, Algorithm::ES256, Algorithm::EdDSA];
    /// let verifier = Verifier::from_jwk_set(set, &validation)?;
    /// # Ok::<(), jsonwebtoken_proved::errors::Error>(())
    /// ```
    ///
    /// # Errors
    ///
    /// It returns the errors of [`Verifier::new`]. If no key with a `kid` fits an algorithm, this is [`ErrorKind::UnusableKey`], whose text
    /// says why keys are skipped. A text that is not a key set is `UnusableKey` too. For one key, call [`Verifier::new`] with a
    /// [`DecodingKey`].
    pub fn from_jwk_set(set: &str, validation: &Validation) -> Result<Verifier> {
        let keys = Keys::new(Source::Set, set.as_bytes()).map_err(Error::from_set_status)?;
        Verifier::made(&keys, validation, 0, 0)
    }

    /// Returns whether these are the verifiers of its issuers.
    pub(crate) fn is_of(&self, verifiers: &[Arc<Verifier>]) -> bool {
        let ours = &self.of_issuers;
        ours.len() == verifiers.len() && ours.iter().zip(verifiers).all(|(it, other)| Arc::ptr_eq(it, other))
    }

    /// Returns the keys that [`Verifier::from_jwk_set`] has skipped, in the order of the set.
    #[must_use]
    pub fn skipped(&self) -> &[SkippedKey] {
        &self.skipped
    }

    /// Returns the verifier of a key and conditions like [`Verifier::new`], for tokens of at most `longest` bytes. Reading a token
    /// allocates in proportion to its length.
    ///
    /// # Errors
    ///
    /// Returns the errors of [`Verifier::new`], and a limit of 0 is [`ErrorKind::InvalidArgument`].
    pub fn with_limit(key: &DecodingKey, validation: &Validation, longest: usize) -> Result<Verifier> {
        if longest == 0 {
            return Err(argument("longest is 0"));
        }
        Verifier::made(key.keys()?, validation, longest, 0)
    }

    /// Returns the verifier of keys and conditions, with the limits of [`Keys::verifier`].
    pub(crate) fn made(keys: &Keys, validation: &Validation, longest: usize, prepared: usize) -> Result<Verifier> {
        let first = keys.verifier(&validation.options()?, longest, prepared).map_err(|status| match status {
            status::NO_USABLE_KEY => Error::no_usable_key(keys.skipped()),
            status => validation.error((status, 0)),
        })?;
        let readers = Mutex::new(Readers { first, idle: Vec::new() });
        let (validations, skipped) = (vec![validation.clone()], Arc::clone(keys.skipped()));
        Ok(Verifier { readers, validations, skipped, of_issuers: Vec::new() })
    }

    /// Returns one verifier for several issuers. Each verifier has the keys and the conditions of an issuer, and a token is accepted if one
    /// of them accepts it. If each refuses it, the error is the refusal that is last in the order of the tests. A key of one issuer
    /// verifies no token of another (RFC 8725 section 3.8).
    ///
    /// ```
    /// use jsonwebtoken_proved::{Algorithm, DecodingKey, Validation, Verifier};
    ///
    /// # let partner = r#"{"keys":[{"kty":"OKP","kid":"a","crv":"Ed25519","x":"11qYAYKxCrfVS_7TyWQHOg7hcvPapiMlrwIaaPcHURo"}]}"#;
    /// # let secret = b"0123456789abcdef0123456789abcdef";
    /// let mut own = Validation::strict(Algorithm::HS256);
    /// own.set_issuer(&["https://own.example"]);
    /// let mut of_partner = Validation::strict(Algorithm::EdDSA);
    /// of_partner.set_issuer(&["https://partner.example"]);
    /// let verifier = Verifier::by_issuer(vec![
    ///     Verifier::new(&DecodingKey::from_secret(secret), &own)?,
    ///     Verifier::from_jwk_set(partner, &of_partner)?,
    /// ])?;
    /// # Ok::<(), jsonwebtoken_proved::errors::Error>(())
    /// ```
    ///
    /// # Errors
    ///
    /// This is [`ErrorKind::InvalidArgument`] if there is no verifier, if a verifier accepts any issuer, or if two verifiers accept the
    /// same issuer.
    pub fn by_issuer(verifiers: Vec<Verifier>) -> Result<Verifier> {
        Verifier::of_issuers(verifiers.into_iter().map(Arc::new).collect())
    }

    pub(crate) fn of_issuers(verifiers: Vec<Arc<Verifier>>) -> Result<Verifier> {
        let validations = verifiers.iter().flat_map(|it| it.validations.iter().cloned()).collect::<Vec<_>>();
        validation::check_issuers(validations.iter())?;
        let mut first = lock(&verifiers[0].readers).first.share().map_err(Error::from_status)?;
        for it in &verifiers[1..] {
            first = first.or(&mut lock(&it.readers).first).map_err(Error::from_status)?;
        }
        let readers = Mutex::new(Readers { first, idle: Vec::new() });
        let skipped = verifiers.iter().flat_map(|it| it.skipped.iter().cloned()).collect();
        Ok(Verifier { readers, validations, skipped, of_issuers: verifiers })
    }

    /// Verifies a token at the time of the system's clock, and returns its claims.
    ///
    /// # Errors
    ///
    /// Returns the errors of [`Verifier::decode_json`]. Claims that do not match the type are [`ErrorKind::Json`]; a clock before
    /// 1970-01-01 00:00:00 UTC is [`ErrorKind::ClockBeforeEpoch`].
    pub fn decode<T: DeserializeOwned>(&self, token: impl AsRef<[u8]>) -> Answer<T> {
        self.decode_json(token, validation::now()?)?.typed()
    }

    /// Verifies a token at the time `now`, in seconds since 1970-01-01 00:00:00 UTC, and returns its claims as JSON: the signed bytes, with
    /// their order and their digits. If an object in them has a name twice, they are compact JSON with the last value of each name.
    ///
    /// # Errors
    ///
    /// A token that is not accepted is a [`Refusal`], whose error says why; [`ErrorKind::OutOfMemory`] says nothing about the token.
    pub fn decode_json(&self, token: impl AsRef<[u8]>, now: u64) -> Answer<String> {
        let token = token.as_ref();
        let (said, claims) = self.with(|it| it.handle.decode(token, now))?;
        let claims = claims.map_err(|it| self.refusal(it, &said))?;
        Ok(Verified { claims, accepted_until: said.last })
    }

    /// Verifies a token at the time `now`, and returns its header and its claims.
    pub(crate) fn token_data<T: DeserializeOwned>(&self, token: &[u8], now: u64) -> Result<TokenData<T>> {
        let read = self.with(|it| match it.handle.decode(token, now) {
            (_, Ok(claims)) => Ok((it.header(token), claims)),
            (said, Err(status)) => Err((said, status)),
        })?;
        let (header, claims) = read.map_err(|(said, status)| self.refusal(status, &said))?;
        Ok(TokenData { header: header?, claims: serde_json::from_str(&claims)? })
    }

    fn refusal(&self, status: u32, said: &Verdict) -> Refusal {
        let error = match status {
            // no algorithm is of the family of the key that the token names
            status::INVALID_KEY_FORMAT => ErrorKind::InvalidAlgorithm.into(),
            _ => self.validations[said.verifier].error((status, said.claim)),
        };
        Refusal { error, test: said.test, has_kid: said.has_kid != 0 }
    }

    /// Returns whether a signature is valid for a message and the one key.
    pub(crate) fn check(&self, algorithm: Algorithm, message: &[u8], signature: &[u8]) -> Result<bool> {
        match self.with(|it| it.handle.check(algorithm.number(), message, signature))? {
            Ok(()) => Ok(true),
            Err(status::INVALID_SIGNATURE) => Ok(false),
            Err(status) => Err(Error::from_signature_status(status, algorithm)),
        }
    }

    /// Returns the token of a message and its signature by the one key.
    pub(crate) fn attach(&self, algorithm: Algorithm, message: &[u8], signature: &[u8]) -> Result<String> {
        let token = self.with(|it| it.handle.attach(message, signature))?;
        token.map_err(|it| Error::from_signature_status(it, algorithm))
    }

    /// Returns what a call gives with a reader that no other call has.
    fn with<T>(&self, call: impl FnOnce(&mut Reader) -> T) -> Result<T> {
        let idle = lock(&self.readers).idle.pop();
        let shared = || lock(&self.readers).first.share().map(|handle| Reader { handle, last: None });
        let mut reader = idle.map_or_else(shared, Ok).map_err(Error::from_status)?;
        let given = call(&mut reader);
        lock(&self.readers).idle.push(reader);
        Ok(given)
    }
}

impl fmt::Debug for Verifier {
    fn fmt(&self, f: &mut fmt::Formatter<'_>) -> fmt::Result {
        f.debug_struct("Verifier").finish_non_exhaustive()
    }
}
