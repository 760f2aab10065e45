//! The conditions on a token.

use crate::errors::{Error, ErrorKind, Result};
use crate::library::calls::{self, Refused};
use crate::{Algorithm, AlgorithmFamily, status};
use serde_json::json;
use std::collections::HashSet;
use std::time::{SystemTime, UNIX_EPOCH};

/// Returns the time of the system's clock, in seconds since 1970-01-01 00:00:00 UTC, or 0 if it is before that time. The calls that verify
/// then return [`ErrorKind::ClockBeforeEpoch`].
#[must_use]
pub fn get_current_timestamp() -> u64 {
    now().unwrap_or(0)
}

pub(crate) fn now() -> Result<u64> {
    seconds_of(SystemTime::now())
}

fn seconds_of(time: SystemTime) -> Result<u64> {
    let since = time.duration_since(UNIX_EPOCH);
    since.map(|it| it.as_secs()).map_err(|_| ErrorKind::ClockBeforeEpoch.into())
}

fn texts<T: ToString, C: FromIterator<String>>(items: &[T]) -> C {
    items.iter().map(ToString::to_string).collect()
}

/// The conditions on a token.
///
/// ```
/// use jsonwebtoken_proved::{Algorithm, Validation};
///
/// let mut validation = Validation::strict(Algorithm::RS256);
/// validation.set_audience(&["web"]); // a token without aud is refused
/// validation.set_issuer(&["https://login.example"]); // a token without iss is refused
/// ```
#[derive(Clone, Debug, PartialEq, Eq)]
#[allow(clippy::struct_excessive_bools)] // as in the crate jsonwebtoken
pub struct Validation {
    /// The required claims among `exp`, `nbf`, `aud`, `iss` and `sub`: `exp` at first. Another name is [`ErrorKind::InvalidArgument`]:
    /// [`required`](Validation::required) is for any claim. If [`aud`](Validation::aud), [`iss`](Validation::iss) or
    /// [`sub`](Validation::sub) is set, the claim is required too.
    pub required_spec_claims: HashSet<String>,
    /// By how many seconds clocks may differ: 60 at first, and 0 by [`Validation::strict`].
    pub leeway: u64,
    /// In how many seconds a token must not have expired yet: 0 at first, and 1 by [`Validation::strict`].
    pub reject_tokens_expiring_in_less_than: u64,
    /// Whether `exp` is checked: at first it is.
    pub validate_exp: bool,
    /// Whether `nbf` is checked: at first it is not, and it is by [`Validation::strict`].
    pub validate_nbf: bool,
    /// Whether `aud` is checked: at first it is, so that a token that names one is refused if no audience is accepted.
    pub validate_aud: bool,
    /// The accepted audiences. The token must name one of them.
    pub aud: Option<HashSet<String>>,
    /// The accepted issuers. The token must name one of them.
    pub iss: Option<HashSet<String>>,
    /// The subject that the token must name.
    pub sub: Option<String>,
    /// The accepted algorithms. [`decode`](crate::decode) requires that all are of the key's family. A [`Verifier`](crate::Verifier) and a
    /// [`KeySet`](crate::KeySet) accept a list of several families: a key verifies with the listed algorithms of the key's family.
    pub algorithms: Vec<Algorithm>,
    /// The names that the header's `crit` may have (RFC 7515 section 4.1.11): none at first.
    pub understood_crit: Vec<String>,
    /// Whether `iat` is checked, if the token has it: at first it is not. It must be a number, and at most the leeway after now (RFC 7519
    /// section 4.1.6).
    pub issued_at: bool,
    /// Further required claims, of any name: none at first. A claim that is null is missing.
    pub required: Vec<String>,
    /// The claims that must be strings if the token has them: none at first.
    pub texts: Vec<String>,
    /// Whether `aud` must be one string, and not a list, if the token has it: at first it may be a list.
    pub one_audience: bool,
    // public, so that `..Validation::default()` is allowed
    #[doc(hidden)]
    pub insecure_ignores_signature: bool,
}

impl Validation {
    /// Accepts this algorithm, with the defaults of the crate `jsonwebtoken`. Unlike in that crate, `aud`, `iss` and `sub` are required if
    /// they are set.
    #[must_use]
    pub fn new(alg: Algorithm) -> Validation {
        Validation {
            algorithms: vec![alg],
            required_spec_claims: texts(&["exp"]),
            leeway: 60,
            reject_tokens_expiring_in_less_than: 0,
            validate_exp: true,
            validate_nbf: false,
            validate_aud: true,
            aud: None,
            iss: None,
            sub: None,
            understood_crit: Vec::new(),
            issued_at: false,
            required: Vec::new(),
            texts: Vec::new(),
            one_audience: false,
            insecure_ignores_signature: false,
        }
    }

    /// Accepts all algorithms of this family, with the defaults of [`Validation::new`].
    #[must_use]
    pub fn new_for_family(family: AlgorithmFamily) -> Validation {
        Validation { algorithms: family.algorithms().to_vec(), ..Validation::default() }
    }

    /// Accepts this algorithm, with the library's strict defaults: without leeway, a token is refused from the time of its `exp` on (RFC
    /// 7519 section 4.1.4), and `nbf` is checked.
    #[must_use]
    pub fn strict(alg: Algorithm) -> Validation {
        Validation { leeway: 0, reject_tokens_expiring_in_less_than: 1, validate_nbf: true, ..Validation::new(alg) }
    }

    /// Accepts tokens for one of these audiences, and requires `aud`: a token that names none is [`ErrorKind::MissingRequiredClaim`].
    pub fn set_audience<T: ToString>(&mut self, items: &[T]) {
        self.aud = Some(texts(items));
    }

    /// Accepts tokens of one of these issuers, and requires `iss`: a token that names none is [`ErrorKind::MissingRequiredClaim`].
    pub fn set_issuer<T: ToString>(&mut self, items: &[T]) {
        self.iss = Some(texts(items));
    }

    /// Requires these claims, among `exp`, `nbf`, `aud`, `iss` and `sub`, and no other, besides those that [`aud`](Validation::aud),
    /// [`iss`](Validation::iss) and [`sub`](Validation::sub) ask for.
    pub fn set_required_spec_claims<T: ToString>(&mut self, items: &[T]) {
        self.required_spec_claims = texts(items);
    }

    /// Requires these claims, of any name: a token without one is [`ErrorKind::MissingRequiredClaim`].
    pub fn set_required<T: ToString>(&mut self, items: &[T]) {
        self.required = texts(items);
    }

    /// Requires that these claims, if they are there, are strings: a token with another one is [`ErrorKind::InvalidClaimFormat`].
    pub fn set_texts<T: ToString>(&mut self, items: &[T]) {
        self.texts = texts(items);
    }

    /// Has [`decode`](crate::decode) check the claims alone, and not the signature, the algorithm or `crit`: **anyone can have written the
    /// token.** All other calls refuse such a `Validation` with [`ErrorKind::InvalidArgument`].
    #[deprecated(note = "`dangerous::insecure_decode` reads tokens without verifying them")]
    pub fn insecure_disable_signature_validation(&mut self) {
        self.insecure_ignores_signature = true;
    }

    /// Returns the options of `jwtproved.h`, as JSON.
    pub(crate) fn options(&self) -> Result<String> {
        if self.insecure_ignores_signature {
            return Err(argument("insecure_disable_signature_validation is for decode alone"));
        }
        if self.algorithms.is_empty() {
            return Err(ErrorKind::MissingAlgorithm.into());
        }
        Ok(self.options_of_claims())
    }

    /// Returns the options for a check of claims alone, which ignores the algorithms. They are strict: the library requires aud, iss and
    /// sub if they are set, and refuses an empty list.
    pub(crate) fn options_of_claims(&self) -> String {
        json!({
            "strict": true,
            "algorithms": self.algorithms,
            "required_spec_claims": self.required_spec_claims,
            "leeway": self.leeway,
            "reject_tokens_expiring_in_less_than": self.reject_tokens_expiring_in_less_than,
            "validate_exp": self.validate_exp,
            "validate_nbf": self.validate_nbf,
            "validate_aud": self.validate_aud,
            "aud": self.aud.as_ref().filter(|_| self.validate_aud),
            "iss": self.iss,
            "sub": self.sub,
            "understood_crit": self.understood_crit,
            "issued_at": self.issued_at,
            "required": self.required,
            "texts": self.texts,
            "one_audience": self.one_audience,
        })
        .to_string()
    }

    /// Returns the error of a call with these conditions, from its status and the place of the claim.
    pub(crate) fn error(&self, (status, claim): Refused) -> Error {
        let name = |names: &[String]| match claim {
            status::CLAIM_IAT => "iat".to_string(),
            place => names[place as usize - 1].clone(),
        };
        let fault = || calls::options_fault(&self.options_of_claims()).unwrap_or_default();
        match status {
            status::MISSING_CLAIM => ErrorKind::MissingRequiredClaim(name(&self.required)).into(),
            status::MALFORMED_CLAIM => ErrorKind::InvalidClaimFormat(name(&self.texts)).into(),
            status::BAD_OPTIONS => argument(fault().replace(" in strict options", "")), // here all are strict
            _ => Error::from_status(status),
        }
    }
}

/// Checks that each of these conditions names an issuer, and no two the same one.
pub(crate) fn check_issuers<'a>(conditions: impl Iterator<Item = &'a Validation>) -> Result<()> {
    let mut found = HashSet::new();
    for it in conditions {
        let mut issuers = it.iss.iter().flatten().peekable();
        if issuers.peek().is_none() {
            return Err(argument("a verifier accepts any issuer; call set_issuer of its Validation"));
        }
        if let Some(twice) = issuers.find(|it| !found.insert(*it)) {
            return Err(argument(format!("two verifiers accept the issuer {twice:?}; put its keys into one set")));
        }
    }
    if found.is_empty() { Err(argument("no verifier is given")) } else { Ok(()) }
}

/// The conditions for HS256.
impl Default for Validation {
    fn default() -> Self {
        Validation::new(Algorithm::default())
    }
}

/// Returns the error of an argument.
pub(crate) fn argument(why: impl Into<String>) -> Error {
    ErrorKind::InvalidArgument(why.into()).into()
}

#[cfg(test)]
mod tests {
    use super::{ErrorKind, get_current_timestamp, seconds_of};
    use std::time::{Duration, UNIX_EPOCH};

    #[test]
    fn a_clock_before_1970_is_an_error() {
        for early in [Duration::from_nanos(1), Duration::from_secs(1), Duration::from_secs(86400 * 365)] {
            assert_eq!(seconds_of(UNIX_EPOCH - early), Err(ErrorKind::ClockBeforeEpoch.into()));
        }
        assert_eq!(seconds_of(UNIX_EPOCH), Ok(0));
        assert_eq!(seconds_of(UNIX_EPOCH + Duration::from_millis(1999)), Ok(1));
        assert!(get_current_timestamp() > 1_700_000_000);
    }
}
