//! Signatures that are checked or made elsewhere.

use jsonwebtoken_proved::errors::{Error, ErrorKind, Result};
use jsonwebtoken_proved::{
    Algorithm, DecodingKey, Header, SignedPart, Signer, SigningInput, Validation, Verdict, decode, decode_by_verdict,
    ecdsa_signature, encode_with, signed_part,
};
use serde_json::{Value, json};
use std::error::Error as StdError;

// RFC 7515 appendix A.3
const PAYLOAD: &str = "eyJpc3MiOiJqb2UiLA0KICJleHAiOjEzMDA4MTkzODAsDQogImh0dHA6Ly9leGFtcGxlLmNvbS9pc19yb290Ijp0cnVlfQ";
const SIGNATURE: &str = "DtEhU3ljbEg8L38VWAfUAqOyKAM6-Xx-F4GawxaepmXFCgfTjDxw5djxLa8ISlSApmWQxfKTUJqPP3-Kg6NU1Q";
/// The key of RFC 7515 appendix A.3.
fn key() -> DecodingKey {
    let [x, y] = ["f83OJ3D2xF1Bg8vub9tLe1gHMzV76e8Tus9uPHvRVEU", "x_FEzRu9m36HLN_tue659LNpXW6pCyStikYjKIWI5a0"];
    DecodingKey::from_ec_components(x, y).unwrap()
}

/// The beginning and the end of the signature's numbers R and S, which the RFC lists as octets.
const R: [u8; 4] = [14, 209, 33, 83];
const S: [u8; 4] = [131, 163, 84, 213];
const EXP: u64 = 1300819380;

/// Returns the token of the RFC, with this payload.
fn token(payload: &str) -> String {
    format!("eyJhbGciOiJFUzI1NiJ9.{payload}.{SIGNATURE}")
}

fn verdict<'a>(part: &'a SignedPart<'_>, is_accepted: bool) -> Verdict<'a> {
    Verdict { algorithm: Algorithm::ES256, message: part.message, signature: &part.signature, is_accepted }
}

fn decoded(token: &str, verdict: &Verdict<'_>, now: u64) -> std::result::Result<Value, ErrorKind> {
    let answer = decode_by_verdict::<Value>(token, verdict, &Validation::new(Algorithm::ES256), now);
    answer.map(|it| it.claims).map_err(Error::into_kind)
}

#[test]
fn parts_that_are_checked_elsewhere() {
    let token = token(PAYLOAD);
    let part = signed_part(&token).unwrap();
    assert_eq!((part.algorithm, part.message), (Algorithm::ES256, token.rsplit_once('.').unwrap().0.as_bytes()));
    assert_eq!((part.signature.len(), &part.signature[..4], &part.signature[60..]), (64, &R[..], &S[..]));
    assert_eq!(signed_part("a.b").unwrap_err().into_kind(), ErrorKind::InvalidToken);
}

#[test]
fn a_verdict() {
    let token = token(PAYLOAD);
    let part = signed_part(&token).unwrap();
    let data =
        decode_by_verdict::<Value>(&token, &verdict(&part, true), &Validation::new(Algorithm::ES256), EXP).unwrap();
    assert_eq!(data.claims, json!({"exp": 1300819380, "http://example.com/is_root": true, "iss": "joe"}));
    assert_eq!(data.header, Header { typ: None, ..Header::new(Algorithm::ES256) });
    assert_eq!(decoded(&token, &verdict(&part, false), EXP), Err(ErrorKind::InvalidSignature));
    assert_eq!(decoded(&token, &verdict(&part, true), EXP + 61), Err(ErrorKind::ExpiredSignature));
    let mut none = Validation::new(Algorithm::ES256);
    none.algorithms.clear();
    let refused = decode_by_verdict::<Value>(&token, &verdict(&part, true), &none, EXP).unwrap_err();
    assert_eq!(refused.kind(), &ErrorKind::MissingAlgorithm);
}

#[test]
fn a_verdict_on_something_else() {
    let (token, other) = (token(PAYLOAD), token("e30"));
    let part = signed_part(&token).unwrap();
    assert_eq!(decoded(&other, &verdict(&part, true), EXP), Err(ErrorKind::InvalidSignature));
    let cut = Verdict { signature: &part.signature[..63], ..verdict(&part, true) };
    assert_eq!(decoded(&token, &cut, EXP), Err(ErrorKind::InvalidSignature));
    let by_another = Verdict { algorithm: Algorithm::RS256, ..verdict(&part, true) };
    assert_eq!(decoded(&token, &by_another, EXP), Err(ErrorKind::InvalidAlgorithm));
}

fn claims() -> Value {
    json!({"aud": "my-service", "exp": 2532524891u64})
}

/// The signature of the claims with ES256 and the key of RFC 7515 appendix A.3, as Python's cryptography made it.
const DER: [u8; 71] = [
    48, 69, 2, 32, 82, 76, 98, 137, 153, 224, 73, 10, 161, 52, 255, 180, 182, 192, 96, 188, 159, 179, 146, 212, 232,
    47, 205, 90, 244, 84, 36, 114, 8, 218, 3, 185, 2, 33, 0, 229, 59, 168, 201, 109, 73, 56, 118, 208, 163, 134, 118,
    156, 127, 173, 214, 139, 215, 152, 80, 140, 49, 214, 154, 250, 76, 108, 101, 111, 71, 91, 149,
];

fn signature() -> Vec<u8> {
    ecdsa_signature(&DER, Algorithm::ES256).unwrap()
}

/// Verifies a token by the key.
fn verified(token: &str) -> Result<Value> {
    let mut validation = Validation::new(Algorithm::ES256);
    validation.set_audience(&["my-service"]);
    Ok(decode(token, &key(), &validation)?.claims)
}

#[test]
fn a_signature_that_was_made_elsewhere() {
    let input = SigningInput::new(&Header::new(Algorithm::ES256), &claims()).unwrap();
    assert_eq!(input.algorithm(), Algorithm::ES256);
    let token = input.encode(&signature()).unwrap();
    assert_eq!(token.as_bytes()[..token.len() - 87], *input.message());
    assert_eq!(verified(&token), Ok(claims()));
    assert_eq!(input.encode_verified(&signature(), &key()), Ok(token));
    let other = SigningInput::new(&Header::new(Algorithm::ES256), &json!({"aud": "my-service"})).unwrap();
    let forged = other.encode(&signature()).unwrap();
    assert_eq!(verified(&forged), Err(ErrorKind::InvalidSignature.into()));
    let refused = other.encode_verified(&signature(), &key()).unwrap_err();
    assert!(matches!(refused.kind(), ErrorKind::Signing(_)) && !refused.is_refusal());
}

/// A token is issued only if its header's `crit` may be there: whether it is understood is up to the reader.
#[test]
fn a_header_with_critical_members() {
    let mut header = Header { crit: Some(vec!["https://example.com/a".to_string()]), ..Header::new(Algorithm::ES256) };
    header.extras.insert("https://example.com/a", 1);
    let input = SigningInput::new(&header, &claims()).unwrap();
    assert!(matches!(input.encode_verified(&signature(), &key()).unwrap_err().kind(), ErrorKind::Signing(_)));
}

/// A signer that has one signature.
struct Kms {
    key: DecodingKey,
    signature: std::result::Result<Vec<u8>, &'static str>,
}

impl Signer for Kms {
    fn algorithm(&self) -> Algorithm {
        Algorithm::ES256
    }

    fn verifying_key(&self) -> &DecodingKey {
        &self.key
    }

    fn sign(&self, _: &[u8]) -> std::result::Result<Vec<u8>, Box<dyn StdError + Send + Sync>> {
        Ok(self.signature.clone()?)
    }
}

#[test]
fn a_signer() {
    let kms = Kms { key: key(), signature: Ok(signature()) };
    let header = Header::new(Algorithm::ES256);
    assert_eq!(verified(&encode_with(&header, &claims(), &kms).unwrap()), Ok(claims()));
    let issued = |header: &Header, claims: &Value, kms: &Kms| encode_with(header, claims, kms).unwrap_err().into_kind();
    let not_verified = ErrorKind::Signing("the signature does not verify by the public key".to_string());
    assert_eq!(issued(&header, &json!({"aud": "other"}), &kms), not_verified);
    assert_eq!(issued(&Header::new(Algorithm::ES384), &claims(), &kms), ErrorKind::InvalidAlgorithm);
    let by_another = Kms { key: DecodingKey::from_ed_components(&"A".repeat(43)).unwrap(), ..kms };
    assert!(matches!(issued(&header, &claims(), &by_another), ErrorKind::UnusableKey(_)));
    let down = Kms { key: key(), signature: Err("the KMS is down") };
    assert_eq!(issued(&header, &claims(), &down), ErrorKind::Signing("the KMS is down".to_string()));
}

#[test]
fn signatures_that_do_not_serve() {
    let input = SigningInput::new(&Header::new(Algorithm::ES256), &claims()).unwrap();
    for wrong in [&DER[..], &[], &[1; 63], &[1; 96]] {
        assert!(matches!(input.encode(wrong).unwrap_err().kind(), ErrorKind::Signing(_)), "{wrong:?}");
    }
    assert_eq!(ecdsa_signature(&DER, Algorithm::RS256), Err(ErrorKind::InvalidAlgorithm.into()));
    assert_eq!(ecdsa_signature(&DER[..70], Algorithm::ES256), Err(ErrorKind::InvalidSignature.into()));
    for claims in [json!([]), json!(1.5), json!("a")] {
        let refused = SigningInput::new(&Header::new(Algorithm::ES256), &claims).unwrap_err();
        assert!(matches!(refused.kind(), ErrorKind::Json(_)), "{claims}");
    }
}
