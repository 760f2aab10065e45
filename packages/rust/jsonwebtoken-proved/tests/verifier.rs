//! Keys and conditions that are read once, in one thread and in many.

use jsonwebtoken_proved::errors::{Error, ErrorKind};
use jsonwebtoken_proved::{Algorithm, DecodingKey, EncodingKey, Header, Validation, Verifier, encode};
use serde_json::Value;
use std::sync::{Arc, Barrier};
use std::thread;

const SECRET: &[u8] = b"0123456789abcdef0123456789abcdef";
const NOW: u64 = 1_700_000_000;

fn verifier() -> Verifier {
    Verifier::new(&DecodingKey::from_secret(SECRET), &Validation::new(Algorithm::HS256)).unwrap()
}

/// Returns the token of these claims.
fn token(claims: &str) -> String {
    let claims: Value = serde_json::from_str(claims).unwrap();
    encode(&Header::default(), &claims, &EncodingKey::from_secret(SECRET)).unwrap()
}

/// Returns the error of a token, and the name of the test that it failed.
fn refusal(verifier: &Verifier, token: &str) -> (ErrorKind, Option<String>) {
    let refusal = verifier.decode_json(token, NOW).unwrap_err();
    assert_eq!(refusal.to_string(), refusal.error.to_string());
    (refusal.error.kind().clone(), refusal.failed_test())
}

#[test]
fn claims_and_the_last_time() {
    let (claims, verifier) = (r#"{"exp":1700000100}"#, verifier());
    let verified = verifier.decode_json(token(claims), NOW).unwrap();
    assert_eq!((verified.claims.as_str(), verified.accepted_until), (claims, 1_700_000_160));
    assert!(verifier.decode_json(token(claims), verified.accepted_until).is_ok());
    assert_eq!(
        verifier.decode_json(token(claims), verified.accepted_until + 1).unwrap_err().error.kind(),
        &ErrorKind::ExpiredSignature
    );
    let mut validation = Validation::new(Algorithm::HS256);
    validation.set_required_spec_claims(&[""; 0]);
    let forever = Verifier::new(&DecodingKey::from_secret(SECRET), &validation).unwrap();
    assert_eq!(forever.decode_json(token("{}"), NOW).unwrap().accepted_until, u64::MAX);
}

/// The names are those of docs/RULES.md, and the order is that of its tests.
#[test]
fn the_test_that_failed() {
    let (verifier, good) = (verifier(), token(r#"{"exp":1700000100}"#));
    let (front, _) = good.rsplit_once('.').unwrap();
    let rows = [
        ("a.b".to_string(), ErrorKind::InvalidToken, "HasThreeParts"),
        // the header {"alg":"HS384"}
        ("eyJhbGciOiJIUzM4NCJ9.e30.AAAA".to_string(), ErrorKind::InvalidAlgorithm, "AlgorithmIsAllowed"),
        (format!("{front}.AAAA"), ErrorKind::InvalidSignature, "SignatureIsAccepted"),
        (token(r#"{"exp":1}"#), ErrorKind::ExpiredSignature, "ClaimsAreValid"),
        (token("{}"), ErrorKind::MissingRequiredClaim("exp".to_string()), "ClaimsAreValid"),
    ];
    for (token, error, test) in rows {
        assert_eq!(refusal(&verifier, &token), (error, Some(test.to_string())), "{token}");
    }
    let (error, test) = refusal(&verifier, "a.b.c");
    assert!(matches!(error, ErrorKind::Base64(_)) && test.as_deref() == Some("HeaderIsBase64url"));
    let (error, test) = refusal(&verifier, "e30.e30.e30");
    assert!(matches!(error, ErrorKind::Json(_)) && test.as_deref() == Some("HeaderIsValid"));
}

#[test]
fn long_tokens() {
    let verifier = verifier();
    let long = token(&format!(r#"{{"exp":1700000100,"text":"{}"}}"#, "x".repeat(700_000)));
    assert!(long.len() < 1 << 20 && verifier.decode_json(&long, NOW).is_ok());
    let longer = "a".repeat((1 << 20) + 1);
    assert_eq!(refusal(&verifier, &longer), (ErrorKind::TokenTooLong, None));
    assert_eq!(refusal(&verifier, &longer[1..]), (ErrorKind::InvalidToken, Some("HasThreeParts".to_string())));
    let (key, validation, short) =
        (DecodingKey::from_secret(SECRET), Validation::new(Algorithm::HS256), token(r#"{"exp":1700000100}"#));
    let limited = |limit: usize| Verifier::with_limit(&key, &validation, limit);
    assert!(limited(short.len()).unwrap().decode_json(&short, NOW).is_ok());
    assert_eq!(refusal(&limited(short.len() - 1).unwrap(), &short), (ErrorKind::TokenTooLong, None));
    let refused = limited(0).map_err(Error::into_kind);
    assert!(matches!(refused, Err(ErrorKind::InvalidArgument(text)) if text.contains("longest")));
}

#[test]
fn keys_for_other_algorithms() {
    let secret = DecodingKey::from_secret(SECRET);
    for algorithm in Algorithm::ALL.iter().copied() {
        let made = Verifier::new(&secret, &Validation::new(algorithm)).map_err(Error::into_kind);
        let is_hmac = matches!(algorithm, Algorithm::HS256 | Algorithm::HS384 | Algorithm::HS512);
        assert_eq!(made.is_ok(), is_hmac, "{algorithm}");
        assert!(is_hmac || matches!(made, Err(ErrorKind::UnusableKey(_))), "{algorithm}");
    }
    assert!(!format!("{:?}", verifier()).contains("0123456789"));
}

/// One verifier for 100 threads at once: each gets the claims of its own tokens.
#[test]
fn a_hundred_threads() {
    const THREADS: usize = 100;
    let (verifier, begin) = (Arc::new(verifier()), Arc::new(Barrier::new(THREADS)));
    let run = |n: usize| {
        let (verifier, begin) = (Arc::clone(&verifier), Arc::clone(&begin));
        thread::spawn(move || {
            let claims = format!(r#"{{"exp":{},"n":{n}}}"#, NOW + n as u64);
            let good = token(&claims);
            let wrong = format!("{}.AAAA", good.rsplit_once('.').unwrap().0);
            begin.wait();
            for _ in 0..50 {
                let verified = verifier.decode_json(&good, NOW).unwrap();
                assert_eq!((verified.claims.as_str(), verified.accepted_until), (claims.as_str(), NOW + n as u64 + 60));
                assert_eq!(verifier.decode_json(&wrong, NOW).unwrap_err().error.kind(), &ErrorKind::InvalidSignature);
                assert_eq!(
                    verifier.decode_json(&good, NOW + n as u64 + 61).unwrap_err().error.kind(),
                    &ErrorKind::ExpiredSignature
                );
            }
        })
    };
    let threads: Vec<_> = (0..THREADS).map(run).collect();
    threads.into_iter().for_each(|it| it.join().unwrap());
}
