//! Fetched key sets of several issuers.

use crate::errors::{ErrorKind, Result};
use crate::library::calls::{self, Part};
use crate::library::lock;
use crate::verifier::Answer;
use crate::{KeySet, Refusal, Validation, Verifier, validation};
use serde::de::DeserializeOwned;
use std::fmt;
use std::sync::{Arc, Mutex};

/// Several issuers, each with a [`KeySet`] that rotates and with conditions on its tokens. A key of one issuer verifies no token of another
/// (RFC 8725 section 3.8). For keys that do not rotate, call [`Verifier::by_issuer`].
///
/// One verifier of all sets verifies the tokens. If it refuses a token and a set may lack the token's key, the set of the issuer that the
/// token names verifies the token again, and is fetched for it as by [`KeySet::decode_json`].
pub struct ByIssuer {
    issuers: Vec<Issuer>,
    last: Mutex<Option<Arc<Verifier>>>,
}

type Issuer = (KeySet, Validation);

impl ByIssuer {
    /// Returns these issuers: the key set of each, and the conditions on its tokens.
    ///
    /// # Errors
    ///
    /// This is [`ErrorKind::InvalidArgument`] if there is no issuer, if a `Validation` accepts any issuer or is not valid, or if two accept
    /// the same issuer. Conditions without an algorithm are [`ErrorKind::MissingAlgorithm`].
    pub fn new(issuers: Vec<(KeySet, Validation)>) -> Result<ByIssuer> {
        validation::check_issuers(issuers.iter().map(|it| &it.1))?;
        for (keys, validation) in &issuers {
            match keys.verifier(validation) {
                // a later set may have a usable key
                Err(error) if !matches!(error.kind(), ErrorKind::UnusableKey(_)) => return Err(error),
                _ => {}
            }
        }
        Ok(ByIssuer { issuers, last: Mutex::default() })
    }

    /// Verifies a token at the time `now`, in seconds since 1970-01-01 00:00:00 UTC, by the keys and conditions of its issuer.
    ///
    /// # Errors
    ///
    /// Returns the errors of [`Verifier::by_issuer`]'s verifiers, and of [`KeySet::decode_json`] with the set of the token's issuer.
    pub fn decode_json(&self, token: impl AsRef<[u8]>, now: u64) -> Answer<String> {
        let token = token.as_ref();
        self.decoded(token, now, |(keys, validation)| keys.decode_json(token, validation, now))
    }

    /// Verifies a token like [`ByIssuer::decode_json`], but never waits for a fetch, like [`KeySet::try_decode_json`].
    ///
    /// # Errors
    ///
    /// Returns the errors of [`ByIssuer::decode_json`] and [`KeySet::try_decode_json`].
    pub fn try_decode_json(&self, token: impl AsRef<[u8]>, now: u64) -> Answer<String> {
        let token = token.as_ref();
        self.decoded(token, now, |(keys, validation)| keys.try_decode_json(token, validation, now))
    }

    /// Verifies a token at the time of the system's clock, like [`ByIssuer::decode_json`], and returns its claims.
    ///
    /// # Errors
    ///
    /// Returns the errors of [`ByIssuer::decode_json`] and [`KeySet::decode`].
    pub fn decode<T: DeserializeOwned>(&self, token: impl AsRef<[u8]>) -> Answer<T> {
        self.decode_json(token, validation::now()?)?.typed()
    }

    /// Verifies a token like [`ByIssuer::decode`], but never waits for a fetch, like [`KeySet::try_decode`].
    ///
    /// # Errors
    ///
    /// Returns the errors of [`ByIssuer::decode`] and [`KeySet::try_decode`].
    pub fn try_decode<T: DeserializeOwned>(&self, token: impl AsRef<[u8]>) -> Answer<T> {
        self.try_decode_json(token, validation::now()?)?.typed()
    }

    /// Returns the key set of the issuer that a token names, such as for [`KeySet::when_fetched`]. Nothing is verified.
    pub fn keys_of(&self, token: impl AsRef<[u8]>) -> Option<&KeySet> {
        self.of_issuer(token.as_ref()).map(|it| &it.0)
    }

    fn of_issuer(&self, token: &[u8]) -> Option<&Issuer> {
        let claims = calls::unverified(token, Part::Payload).ok()?;
        let is_named = |it: &String| calls::has_text(&claims, r#"["iss"]"#, it);
        self.issuers.iter().find(|it| it.1.iss.iter().flatten().any(is_named))
    }

    fn decoded(&self, token: &[u8], now: u64, again: impl Fn(&Issuer) -> Answer<String>) -> Answer<String> {
        let (answer, has_all) = match self.verifier() {
            Ok(it) => (it.decode_json(token, now), it.of_issuers.len() == self.issuers.len()),
            Err(error) => (Err(Refusal::from(error)), false),
        };
        match answer {
            Err(refusal) if refusal.has_kid || !has_all => self.of_issuer(token).map_or(Err(refusal), again),
            answer => answer,
        }
    }

    /// Returns the verifier of the sets as they are now. A set without a usable key leaves the tokens of the others.
    fn verifier(&self) -> Result<Arc<Verifier>> {
        let usable = self.issuers.iter().filter_map(|it| it.0.verifier(&it.1).ok()).collect::<Vec<_>>();
        if usable.is_empty() {
            return self.issuers[0].0.verifier(&self.issuers[0].1);
        }
        let mut last = lock(&self.last);
        match &*last {
            Some(known) if known.is_of(&usable) => Ok(Arc::clone(known)),
            _ => Ok(Arc::clone(last.insert(Arc::new(Verifier::of_issuers(usable)?)))),
        }
    }
}

impl fmt::Debug for ByIssuer {
    fn fmt(&self, f: &mut fmt::Formatter<'_>) -> fmt::Result {
        f.debug_struct("ByIssuer").field("issuers", &self.issuers).finish_non_exhaustive()
    }
}
