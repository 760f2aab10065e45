//! Tokens that OpenSSL signs, with keys that it makes and writes.
#![cfg(feature = "openssl")]

use jsonwebtoken_proved::errors::{ErrorKind, Result};
use jsonwebtoken_proved::jwk::Jwk;
use jsonwebtoken_proved::{
    Algorithm, AlgorithmFamily, DecodingKey, EncodingKey, Header, Validation, crypto, decode, encode,
};
use openssl::ec::{EcGroup, EcKey};
use openssl::nid::Nid;
use openssl::pkey::{PKey, Private};
use openssl::rsa::Rsa;
use serde_json::{Value, json};

fn claims() -> Value {
    json!({"sub": "b@b.com", "exp": 4102444800u64})
}

/// Issues a token, verifies it by the public key, and returns it.
fn round_trip(issuing: &EncodingKey, verifying: &DecodingKey, algorithm: Algorithm) -> Result<String> {
    let token = encode(&Header::new(algorithm), &claims(), issuing)?;
    assert_eq!(decode::<Value>(&token, verifying, &Validation::new(algorithm))?.claims, claims());
    let jwk = Jwk::from_encoding_key(issuing, algorithm)?;
    assert_eq!(decode::<Value>(&token, &DecodingKey::from_jwk(&jwk)?, &Validation::new(algorithm))?.claims, claims());
    Ok(token)
}

fn curve(nid: Nid) -> EcKey<Private> {
    EcKey::generate(&EcGroup::from_curve_name(nid).unwrap()).unwrap()
}

#[test]
fn rsa() {
    let key = Rsa::generate(2048).unwrap();
    let pkcs8 = PKey::from_rsa(key.clone()).unwrap().private_key_to_pem_pkcs8().unwrap();
    let issuing = [
        EncodingKey::from_rsa_pem(&key.private_key_to_pem().unwrap()).unwrap(),
        EncodingKey::from_rsa_pem(&pkcs8).unwrap(),
        EncodingKey::from_rsa_der(&key.private_key_to_der().unwrap()),
    ];
    let verifying = DecodingKey::from_rsa_pem(&key.public_key_to_pem().unwrap()).unwrap();
    for algorithm in AlgorithmFamily::Rsa.algorithms() {
        for issuing in &issuing {
            round_trip(issuing, &verifying, *algorithm).unwrap();
        }
    }
    let refused = encode(&Header::new(Algorithm::ES256), &claims(), &issuing[0]).unwrap_err();
    assert_eq!(refused.kind(), &ErrorKind::InvalidAlgorithm);
    // the library refuses a modulus of less than 2048 bits, so no token is issued by one
    let short = EncodingKey::from_rsa_der(&Rsa::generate(1024).unwrap().private_key_to_der().unwrap());
    let refused = encode(&Header::new(Algorithm::RS256), &claims(), &short).unwrap_err();
    assert!(matches!(refused.kind(), ErrorKind::UnusableKey(_)), "{refused}");
}

#[test]
fn curves() {
    for (algorithm, nid) in [(Algorithm::ES256, Nid::X9_62_PRIME256V1), (Algorithm::ES384, Nid::SECP384R1)] {
        let key = curve(nid);
        let pkcs8 = PKey::from_ec_key(key.clone()).unwrap().private_key_to_pem_pkcs8().unwrap();
        let verifying = DecodingKey::from_ec_pem(&key.public_key_to_pem().unwrap()).unwrap();
        for issuing in [
            EncodingKey::from_ec_pem(&pkcs8).unwrap(),
            EncodingKey::from_ec_pem(&key.private_key_to_pem().unwrap()).unwrap(),
            EncodingKey::from_ec_der(&key.private_key_to_der().unwrap()),
        ] {
            round_trip(&issuing, &verifying, algorithm).unwrap();
        }
    }
    let on_another = EncodingKey::from_ec_der(&curve(Nid::SECP384R1).private_key_to_der().unwrap());
    let refused = encode(&Header::new(Algorithm::ES256), &claims(), &on_another).unwrap_err();
    assert_eq!(refused.kind(), &ErrorKind::InvalidEcdsaKey);
    let unknown = EncodingKey::from_ec_der(&curve(Nid::SECP256K1).private_key_to_der().unwrap());
    assert!(!encode(&Header::new(Algorithm::ES256), &claims(), &unknown).unwrap_err().is_refusal());
}

#[test]
fn ed25519() {
    let key = PKey::generate_ed25519().unwrap();
    let verifying = DecodingKey::from_ed_pem(&key.public_key_to_pem().unwrap()).unwrap();
    for issuing in [
        EncodingKey::from_ed_pem(&key.private_key_to_pem_pkcs8().unwrap()).unwrap(),
        EncodingKey::from_ed_der(&key.private_key_to_der().unwrap()),
    ] {
        round_trip(&issuing, &verifying, Algorithm::EdDSA).unwrap();
    }
}

#[test]
fn one_signature() {
    let key = PKey::generate_ed25519().unwrap();
    let issuing = EncodingKey::from_ed_der(&key.private_key_to_der().unwrap());
    let verifying = DecodingKey::from_ed_pem(&key.public_key_to_pem().unwrap()).unwrap();
    // RFC 7515 appendix A.3 has this payload
    let message = b"eyJhbGciOiJFZERTQSJ9.eyJpc3MiOiJqb2UiLA0KICJleHAiOjEzMDA4MTkzODAsDQogImh0dHA6Ly9leGFtcGxlLmNvbS9pc19yb290Ijp0cnVlfQ";
    let signature = crypto::sign(message, &issuing, Algorithm::EdDSA).unwrap();
    assert_eq!(crypto::verify(&signature, message, &verifying, Algorithm::EdDSA), Ok(true));
    let other = [&b"eyJhbGciOiJFZERTQSJ9"[..], b".e30"].concat();
    assert_eq!(crypto::verify(&signature, &other, &verifying, Algorithm::EdDSA), Ok(false));
    let refused = crypto::sign(message, &issuing, Algorithm::RS256).unwrap_err();
    assert_eq!(refused.kind(), &ErrorKind::InvalidAlgorithm);
}

#[test]
fn keys_that_do_not_sign() {
    let rsa = Rsa::generate(2048).unwrap().private_key_to_der().unwrap();
    for (key, algorithm) in [
        (EncodingKey::from_rsa_der(b""), Algorithm::RS256),
        (EncodingKey::from_ec_der(b"a"), Algorithm::ES256),
        (EncodingKey::from_ed_der(&[1; 32]), Algorithm::EdDSA),
        // keys of another kind
        (EncodingKey::from_ec_der(&rsa), Algorithm::ES256),
        (EncodingKey::from_ed_der(&rsa), Algorithm::EdDSA),
    ] {
        let refused = encode(&Header::new(algorithm), &claims(), &key).unwrap_err();
        assert_eq!(refused.kind(), &ErrorKind::InvalidKeyFormat, "{algorithm}");
    }
}
