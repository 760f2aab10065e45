//! A program that is written against the crate `jsonwebtoken`, and has each of its public items: that it compiles is half of the test.

use jsonwebtoken_proved as jsonwebtoken;

use jsonwebtoken::dangerous::{insecure_decode, insecure_decode_claims};
use jsonwebtoken::errors::{Error, ErrorKind, Result};
use jsonwebtoken::jwk::{
    AlgorithmParameters, CommonParameters, EllipticCurve, EllipticCurveKeyParameters, EllipticCurveKeyType, Jwk,
    JwkSet, KeyAlgorithm, KeyOperations, OctetKeyPairParameters, OctetKeyPairType, OctetKeyParameters, OctetKeyType,
    OtherKeyParameters, PublicKeyUse, RSAKeyParameters, RSAKeyType, ThumbprintHash,
};
use jsonwebtoken::jws::{self, Jws};
use jsonwebtoken::{
    Algorithm, AlgorithmFamily, DecodingKey, DecodingKeyKind, Enc, EncodingKey, Extras, Header, TokenData, Validation,
    Zip, crypto, decode, decode_header, encode, get_current_timestamp,
};
use serde::{Deserialize, Serialize};
use serde_json::{Value, json};
use std::collections::{HashMap, HashSet};
use std::error::Error as StdError;

const SECRET: &[u8] = b"0123456789abcdef0123456789abcdef";

#[derive(Clone, Debug, PartialEq, Serialize, Deserialize)]
struct Claims {
    sub: String,
    exp: u64,
}

fn claims() -> Claims {
    Claims { sub: "b@b.com".to_string(), exp: get_current_timestamp() + 1000 }
}

/// What a service of that crate has: keys by their `kid`, and a match on the kind of an error.
struct Service {
    keys: HashMap<String, DecodingKey>,
    validation: Validation,
}

impl Service {
    fn user(&self, token: &str) -> std::result::Result<String, u16> {
        let kid = decode_header(token).map_err(|_| 400u16)?.kid.ok_or(400u16)?;
        let key = self.keys.get(&kid).ok_or(401u16)?;
        match decode::<Claims>(token, key, &self.validation) {
            Ok(TokenData { claims, .. }) => Ok(claims.sub),
            Err(error) => Err(match *error.kind() {
                ErrorKind::ExpiredSignature => 440,
                ErrorKind::InvalidSignature | ErrorKind::InvalidToken => 401,
                _ if error.is_refusal() => 403,
                _ => 503,
            }),
        }
    }
}

#[test]
fn a_service() {
    let set: JwkSet = serde_json::from_value(json!({"keys": [
        {"kty": "oct", "kid": "a", "alg": "HS256", "use": "sig", "k": "MDEyMzQ1Njc4OWFiY2RlZjAxMjM0NTY3ODlhYmNkZWY"},
        {"kty": "AKP", "kid": "b", "pub": "AA"},
    ]}))
    .unwrap();
    let usable = set.keys.iter().filter_map(|it| Some((it.common.key_id.clone()?, DecodingKey::from_jwk(it).ok()?)));
    let mut validation = Validation::new(Algorithm::HS256);
    validation.set_audience(&["web"]);
    let service = Service { keys: usable.collect(), validation };
    assert_eq!(service.keys.len(), 1);
    let issue = |kid: &str, claims: Value, secret: &[u8]| {
        let header = Header { kid: Some(kid.to_string()), ..Default::default() };
        encode(&header, &claims, &EncodingKey::from_secret(secret)).unwrap()
    };
    let good = json!({"sub": "b@b.com", "exp": 4102444800u64, "aud": "web"});
    assert_eq!(service.user(&issue("a", good.clone(), SECRET)), Ok("b@b.com".to_string()));
    assert_eq!(service.user(&issue("b", good.clone(), SECRET)), Err(401));
    assert_eq!(service.user(&issue("a", good, b"another secret")), Err(401));
    assert_eq!(service.user(&issue("a", json!({"sub": "b@b.com", "exp": 1, "aud": "web"}), SECRET)), Err(440));
    assert_eq!(service.user(&issue("a", json!({"sub": "b@b.com", "exp": 4102444800u64}), SECRET)), Err(403));
    assert_eq!(service.user("a.b.c"), Err(400));
}

#[test]
fn keys_of_secrets() {
    let issuing = [
        EncodingKey::from_secret(SECRET),
        EncodingKey::from_base64_secret("MDEyMzQ1Njc4OWFiY2RlZjAxMjM0NTY3ODlhYmNkZWY=").unwrap(),
        EncodingKey::from_urlsafe_base64_secret("MDEyMzQ1Njc4OWFiY2RlZjAxMjM0NTY3ODlhYmNkZWY=").unwrap(),
    ];
    let verifying = DecodingKey::from_base64_secret("MDEyMzQ1Njc4OWFiY2RlZjAxMjM0NTY3ODlhYmNkZWY=").unwrap();
    for key in issuing {
        assert_eq!((key.family(), key.as_bytes()), (AlgorithmFamily::Hmac, SECRET));
        let token = encode(&Header::default(), &claims(), &key).unwrap();
        assert_eq!(
            decode::<Claims>(token.as_bytes(), &verifying, &Validation::default()).unwrap().claims.sub,
            "b@b.com"
        );
        let jwk = Jwk::from_encoding_key(&key, Algorithm::HS256).unwrap();
        assert_eq!(
            decode::<Claims>(token, &DecodingKey::try_from(&jwk).unwrap(), &Validation::default()).unwrap().claims.sub,
            "b@b.com"
        );
    }
    assert!(matches!(verifying.kind(), DecodingKeyKind::SecretOrDer(bytes) if bytes == SECRET));
    assert_eq!(verifying.try_get_as_bytes(), Ok(SECRET));
    assert_eq!(verifying.family(), AlgorithmFamily::Hmac);
}

/// RFC 4648 section 10. Unused bits and other characters are refused.
#[test]
fn base64() {
    for (bytes, text) in
        [("", ""), ("f", "Zg=="), ("fo", "Zm8="), ("foo", "Zm9v"), ("foob", "Zm9vYg=="), ("foobar", "Zm9vYmFy")]
    {
        for text in [text, text.trim_end_matches('=')] {
            assert_eq!(EncodingKey::from_base64_secret(text).unwrap().as_bytes(), bytes.as_bytes());
            assert_eq!(EncodingKey::from_urlsafe_base64_secret(text).unwrap().as_bytes(), bytes.as_bytes());
        }
    }
    assert_eq!(EncodingKey::from_base64_secret("+/+/").unwrap().as_bytes(), [251, 255, 191]);
    assert_eq!(EncodingKey::from_urlsafe_base64_secret("-_-_").unwrap().as_bytes(), [251, 255, 191]);
    for wrong in ["Z", "Zg=", "Zg===", "Zh==", "Zm9=", "Zm9v====", "Zm 8", "Zm_8", "====", "Zg==Zg=="] {
        assert!(matches!(DecodingKey::from_base64_secret(wrong).unwrap_err().kind(), ErrorKind::Base64(_)), "{wrong}");
        assert!(EncodingKey::from_base64_secret(wrong).is_err(), "{wrong}");
    }
}

#[test]
fn keys_of_numbers() {
    // RFC 7517 appendix A.1, and RFC 8037 appendix A.2
    let n = "0vx7agoebGcQSuuPiLJXZptN9nndrQmbXEps2aiAFbWhM78LhWx4cbbfAAtVT86zwu1RK7aPFFxuhDR1L6tSoc_BJECPebWKRXjBZCiFV4n3oknjhMstn64tZ_2W-5JsGY4Hc5n9yBXArwl93lqt7_RN5w6Cf0h4QyQ5v-65YGjQR0_FDW2QvzqY368QQMicAtaSqzs8KJZgnYb9c7d0zgdAZHzu6qMQvRL5hajrn1n91CbOpbISD08qNLyrdkt-bFTWhAI4vMQFh6WeZu0fM4lFd2NcRwr3XPksINHaQ-G_xBniIqbw0Ls1jF44-csFCur-kEgU8awapJzKnqDKgw";
    let rsa = DecodingKey::from_rsa_components(n, "AQAB").unwrap();
    let (modulus, e) = match rsa.kind() {
        DecodingKeyKind::RsaModulusExponent { n, e } => (n, e),
        other => panic!("{other:?}"),
    };
    assert_eq!((modulus.len(), e.as_slice()), (256, &[1, 0, 1][..]));
    assert_eq!(rsa.try_get_as_bytes().unwrap_err().kind(), &ErrorKind::InvalidKeyFormat);
    assert_eq!(DecodingKey::from_rsa_raw_components(modulus, e).family(), AlgorithmFamily::Rsa);
    let jwk = Jwk::from_decoding_key(&rsa, Some(Algorithm::PS256)).unwrap();
    assert_eq!(jwk.common.key_algorithm, Some(KeyAlgorithm::PS256));
    assert!(matches!(&jwk.algorithm, AlgorithmParameters::RSA(it) if it.n == n && it.e == "AQAB"));
    // RFC 7638 section 3.1
    assert_eq!(jwk.thumbprint(ThumbprintHash::SHA256).unwrap(), "NzbLsXh8uDCcd-6MNwXF4W_7noWXFZAfHkxZsRGC9Xs");
    let ed = DecodingKey::from_ed_components("11qYAYKxCrfVS_7TyWQHOg7hcvPapiMlrwIaaPcHURo").unwrap();
    // RFC 8037 appendix A.3, and the same by the other hashes of Python's hashlib
    let jwk = Jwk::from_decoding_key(&ed, None).unwrap();
    for (hash, wanted) in [
        (ThumbprintHash::SHA256, "kPrK_qmxVWaYVA9wwBF6Iuo3vVzz7TxHCTwXBygrS4k"),
        (ThumbprintHash::SHA384, "ePy6LSb6I7JWK2uWQyYJQ4DBrwGE4QoxPl6INUviCtqplTLCwzo6fD9Eaw69Wvtt"),
        (
            ThumbprintHash::SHA512,
            "SfSqAgfmPYvpuNzfHCiQXi6Mr51GG78hHopngoabsV9xvLR0hcUfVCoJLfyzi08Dbnds6kmcAt23CpNV-8qLTg",
        ),
    ] {
        assert_eq!(jwk.thumbprint(hash).unwrap(), wanted);
    }
    assert_eq!(Jwk::from_decoding_key(&ed, Some(Algorithm::ES256)).unwrap_err().kind(), &ErrorKind::InvalidAlgorithm);
    // a key that verifies no token has a thumbprint too
    let common = CommonParameters { public_key_use: Some(PublicKeyUse::Encryption), ..CommonParameters::default() };
    let enc = Jwk { common, ..jwk };
    assert_eq!(enc.thumbprint(ThumbprintHash::SHA256).unwrap(), "kPrK_qmxVWaYVA9wwBF6Iuo3vVzz7TxHCTwXBygrS4k");
    assert_eq!(DecodingKey::from_ed_der(&[1; 32]).family(), AlgorithmFamily::Ed);
    assert_eq!(DecodingKey::from_ec_der(&[4; 65]).family(), AlgorithmFamily::Ec);
    assert_eq!(DecodingKey::from_rsa_der(&[]).family(), AlgorithmFamily::Rsa);
    for key in [EncodingKey::from_rsa_der(&[1]), EncodingKey::from_ec_der(&[1]), EncodingKey::from_ed_der(&[1])] {
        let algorithm = key.family().algorithms()[0];
        let refused = encode(&Header::new(algorithm), &claims(), &key).unwrap_err();
        assert!(!refused.is_refusal(), "{refused}");
    }
}

/// Each kind of key is read into its type, and written as it was.
#[test]
fn json_web_keys() {
    let rows = [
        json!({"kty": "EC", "crv": "P-256", "x": "AA", "y": "AQ", "use": "sig", "key_ops": ["verify", "x"], "kid": "a"}),
        json!({"kty": "EC", "crv": "P-521", "x": "AA", "y": "AQ", "use": "enc", "alg": "ES256"}),
        json!({"kty": "RSA", "n": "AA", "e": "AQAB", "alg": "RSA-OAEP-256", "x5u": "u", "x5c": ["c"], "x5t": "t"}),
        json!({"kty": "oct", "k": "AA", "use": "other", "x5t#S256": "s", "alg": "HS512"}),
        json!({"kty": "OKP", "crv": "Ed25519", "x": "AA"}),
        json!({"kty": "AKP", "pub": "AA", "kid": "b", "more": [1, {"x": null}]}),
    ];
    let read: Vec<Jwk> = rows.iter().map(|it| serde_json::from_value(it.clone()).unwrap()).collect();
    assert_eq!(serde_json::to_value(&read).unwrap(), Value::from(rows.to_vec()));
    let common = CommonParameters {
        public_key_use: Some(PublicKeyUse::Signature),
        key_operations: Some(vec![KeyOperations::Verify, KeyOperations::Other("x".to_string())]),
        key_id: Some("a".to_string()),
        ..Default::default()
    };
    let curve = EllipticCurveKeyParameters {
        key_type: EllipticCurveKeyType::EC,
        curve: EllipticCurve::P256,
        x: "AA".to_string(),
        y: "AQ".to_string(),
    };
    assert_eq!(read[0], Jwk { common, algorithm: AlgorithmParameters::EllipticCurve(curve) });
    let rsa = RSAKeyParameters { key_type: RSAKeyType::RSA, n: "AA".to_string(), e: "AQAB".to_string() };
    assert_eq!(read[2].algorithm, AlgorithmParameters::RSA(rsa));
    let octets = OctetKeyParameters { key_type: OctetKeyType::Octet, value: "AA".to_string() };
    assert_eq!(read[3].algorithm, AlgorithmParameters::OctetKey(octets));
    let pair = OctetKeyPairParameters {
        key_type: OctetKeyPairType::OctetKeyPair,
        curve: EllipticCurve::Ed25519,
        x: "AA".to_string(),
    };
    assert_eq!(read[4].algorithm, AlgorithmParameters::OctetKeyPair(pair));
    let fields = [("kty", json!("AKP")), ("pub", json!("AA")), ("more", json!([1, {"x": null}]))];
    let other = OtherKeyParameters { fields: fields.map(|(name, value)| (name.to_string(), value)).into() };
    assert_eq!(read[5].algorithm, AlgorithmParameters::Other(other));
    assert_eq!(read.iter().map(Jwk::is_supported).collect::<Vec<_>>(), [false, true, false, true, false, false]);
    let set = JwkSet { keys: read.clone() };
    assert_eq!((set.find("b"), set.find("c")), (Some(&read[5]), None));
    assert_eq!(DecodingKey::from_jwk(&read[5]).unwrap_err().kind(), &ErrorKind::UnsupportedAlgorithm);
    assert_eq!(read[5].thumbprint(ThumbprintHash::SHA256), Err(ErrorKind::UnsupportedAlgorithm.into()));
    assert_eq!(HashSet::from([read[0].clone(), read[0].clone(), read[5].clone()]).len(), 2);
    let unknown: Jwk = serde_json::from_value(json!({"kty": "oct", "k": "AA", "alg": "ES256K"})).unwrap();
    assert_eq!(unknown.common.key_algorithm, Some(KeyAlgorithm::UNKNOWN_ALGORITHM));
    assert!(serde_json::from_value::<Jwk>(json!({"kty": "oct", "k": "AA", "kid": 5})).is_err());
}

/// The library reads a key, and refuses one with which it can't verify, and a secret that others may know.
#[test]
fn keys_of_json_web_keys() {
    let x = "f83OJ3D2xF1Bg8vub9tLe1gHMzV76e8Tus9uPHvRVEU"; // RFC 7515 appendix A.3.1
    let made = [
        json!({"kty": "oct", "k": "MDEyMzQ1Njc4OWFiY2RlZjAxMjM0NTY3ODlhYmNkZWY", "alg": "HS512", "kid": "a"}),
        // RFC 8037 appendix A.2
        json!({"kty": "OKP", "crv": "Ed25519", "x": "11qYAYKxCrfVS_7TyWQHOg7hcvPapiMlrwIaaPcHURo", "use": "sig"}),
    ];
    for text in made {
        let jwk: Jwk = serde_json::from_value(text.clone()).unwrap();
        let key = DecodingKey::from_jwk(&jwk).unwrap();
        assert!(jsonwebtoken::Verifier::new(&key, &Validation::new_for_family(key.family())).is_ok(), "{text}");
        let common = CommonParameters::default();
        assert_eq!(Jwk::from_decoding_key(&key, None), Ok(Jwk { common, algorithm: jwk.algorithm }), "{text}");
    }
    let refused = [
        (json!({"kty": "oct", "k": "AAAA"}), "Unusable key: Secret is empty or all zeros"),
        // ssh-rsa AAAA
        (json!({"kty": "oct", "k": "c3NoLXJzYSBBQUFB"}), "Unusable key: Secret is the text of a key"),
        (json!({"kty": "oct", "k": "MDEyMzQ1", "alg": "RS256"}), "Unusable key: "),
        (json!({"kty": "oct", "k": "MDEyMzQ1", "use": "enc"}), "Unusable key: "),
        (json!({"kty": "EC", "crv": "P-256", "x": x, "y": x}), "Unusable key: "),
        (json!({"kty": "RSA", "n": "AQAB", "e": "AQAB"}), "Unusable key: "),
        (json!({"kty": "OKP", "crv": "Ed25519", "x": "AQAB"}), "Unusable key: "),
        (json!({"kty": "oct", "k": "+/"}), "Base64 error"),
        (json!({"kty": "RSA", "n": "AQAB", "e": "AQ=B"}), "Base64 error"),
        (json!({"kty": "EC", "crv": "P-256", "x": "A", "y": "AQAB"}), "Base64 error"),
        (json!({"kty": "OKP", "crv": "Ed25519", "x": "AQA="}), "Base64 error"),
        (json!({"kty": "EC", "crv": "P-256", "x": "AQAB"}), "UnsupportedAlgorithm"),
        (json!({"kty": "RSA", "n": "AQAB"}), "UnsupportedAlgorithm"),
        (json!({}), "UnsupportedAlgorithm"),
    ];
    for (text, wanted) in refused {
        let jwk: Jwk = serde_json::from_value(text.clone()).unwrap();
        let refused = DecodingKey::from_jwk(&jwk).unwrap_err().to_string();
        assert!(refused.starts_with(wanted), "{refused} {text}");
    }
}

#[test]
fn algorithms() {
    for it in Algorithm::ALL {
        assert_eq!(Algorithm::try_from(KeyAlgorithm::from(*it)), Ok(*it));
        assert_eq!(it.to_string().parse(), Ok(KeyAlgorithm::from(*it)));
        assert_eq!(serde_json::to_value(it).unwrap(), it.to_string());
        assert_eq!(Validation::new_for_family(it.family()).algorithms, it.family().algorithms());
        assert!(it.family().algorithms().iter().all(|other| other.family() == it.family()), "{it}");
        assert!(it.family().algorithms().contains(it), "{it}");
    }
    assert_eq!("RSA-OAEP".parse(), Ok(KeyAlgorithm::RSA_OAEP));
    assert_eq!("x".parse::<KeyAlgorithm>().unwrap_err().kind(), &ErrorKind::InvalidAlgorithmName);
    let refused = Algorithm::try_from(KeyAlgorithm::RSA1_5).unwrap_err();
    assert_eq!(refused.kind(), &ErrorKind::UnsupportedAlgorithm);
    assert_eq!((Algorithm::default(), AlgorithmFamily::Rsa.algorithms().len()), (Algorithm::HS256, 6));
}

#[test]
fn headers() {
    let text = json!({
        "alg": "RS256", "typ": "JWT", "cty": "c", "jku": "j", "jwk": {"kty": "oct", "k": "AA"}, "kid": "k", "x5u": "u",
        "x5c": ["AAAA"], "x5t": "t", "x5t#S256": "s", "crit": ["z"], "enc": "A128GCM", "zip": "DEF", "url": "u",
        "nonce": "n", "z": {"y": 1},
    });
    let header: Header = serde_json::from_value(text.clone()).unwrap();
    assert_eq!((&header.enc, &header.zip), (&Some(Enc::A128GCM), &Some(Zip::Deflate)));
    assert_eq!(header.x5c_der(), Ok(Some(vec![vec![0, 0, 0]])));
    assert_eq!(header.extras.get::<HashMap<String, u8>>("z").unwrap(), Some(HashMap::from([("y".to_string(), 1)])));
    assert_eq!(header.extras.inner().len(), 1);
    assert_eq!(serde_json::to_value(&header).unwrap(), text);
    assert_ne!(header.extras, Extras::default());
    let other: Header = serde_json::from_value(json!({"alg": "HS256", "enc": "x", "zip": "y"})).unwrap();
    assert_eq!((other.enc, other.zip), (Some(Enc::Other("x".to_string())), Some(Zip::Other("y".to_string()))));
    let broken = Header { x5c: Some(vec!["a b".to_string()]), ..Header::default() };
    assert!(matches!(broken.x5c_der().unwrap_err().kind(), ErrorKind::Base64(_)));
}

#[test]
fn tokens_that_are_not_verified() {
    let mut header = Header { crit: Some(vec!["x".to_string()]), ..Header::default() };
    header.extras.insert("x", 1);
    let token = encode(&header, &json!({"sub": "b@b.com", "exp": 1}), &EncodingKey::from_secret(SECRET)).unwrap();
    let forged = format!("{}.AAAA", token.rsplit_once('.').unwrap().0);
    for token in [&token, &forged] {
        let data = insecure_decode::<Claims>(token).unwrap();
        assert_eq!((data.header.alg, data.claims.exp), (Algorithm::HS256, 1));
        assert_eq!(insecure_decode_claims::<Claims>(token).unwrap().sub, "b@b.com");
    }
    assert_eq!(insecure_decode::<Claims>("a.b").unwrap_err().kind(), &ErrorKind::InvalidToken);
    assert!(matches!(insecure_decode::<u8>(&token).unwrap_err().kind(), ErrorKind::Json(_)));
    // the headers {"alg":"none"}, {"alg":"ES512"} and no header at all
    let (_, rest) = token.split_once('.').unwrap();
    for header in ["eyJhbGciOiJub25lIn0", "eyJhbGciOiJFUzUxMiJ9", "?"] {
        let token = format!("{header}.{rest}");
        assert_eq!(insecure_decode_claims::<Claims>(&token).unwrap().sub, "b@b.com");
        let refused = [decode_header(&token).err(), insecure_decode::<Claims>(&token).err()];
        for error in refused.map(|it| it.unwrap().into_kind()) {
            assert!(matches!(error, ErrorKind::Json(_) | ErrorKind::Base64(_)), "{header} {error:?}");
        }
    }
    // a list, a number and null
    for token in ["e30.W10.", "e30.NQ.", "e30.bnVsbA."] {
        assert!(matches!(insecure_decode_claims::<Value>(token).unwrap_err().kind(), ErrorKind::Json(_)), "{token}");
    }
}

#[test]
fn tokens_in_json() {
    let key = EncodingKey::from_secret(SECRET);
    let token: Jws<Claims> = jws::encode(&Header::default(), Some(&claims()), &key).unwrap();
    let text = serde_json::to_value(&token).unwrap();
    assert_eq!(text.as_object().unwrap().keys().collect::<Vec<_>>(), ["payload", "protected", "signature"]);
    let read: Jws<Claims> = serde_json::from_value(text).unwrap();
    let verifying = DecodingKey::from_secret(SECRET);
    assert_eq!(jws::decode(&read, &verifying, &Validation::default()).unwrap().claims.sub, "b@b.com");
    let forged = Jws { signature: "AAAA".to_string(), ..read };
    let refused = jws::decode(&forged, &verifying, &Validation::default()).unwrap_err();
    assert_eq!(refused.kind(), &ErrorKind::InvalidSignature);
    assert!(matches!(
        jws::encode::<Claims>(&Header::default(), None, &key).unwrap_err().kind(),
        ErrorKind::Provider(_)
    ));
    // a dot in a part makes a token of four parts
    let dotted = Jws { payload: "e30.e30".to_string(), ..forged };
    assert!(jws::decode(&dotted, &verifying, &Validation::default()).unwrap_err().is_refusal());
}

#[test]
fn one_signature() {
    let token = encode(&Header::default(), &claims(), &EncodingKey::from_secret(SECRET)).unwrap();
    let (message, signature) = token.rsplit_once('.').unwrap();
    let key = DecodingKey::from_secret(SECRET);
    let verify = |signature: &str, message: &str| crypto::verify(signature, message.as_bytes(), &key, Algorithm::HS256);
    assert_eq!(verify(signature, message), Ok(true));
    assert_eq!(verify("AAAA", message), Ok(false));
    assert_eq!(verify(signature, "hello"), Ok(false));
    assert!(matches!(verify("a b", message).unwrap_err().kind(), ErrorKind::Base64(_)));
    let refused = crypto::verify(signature, message.as_bytes(), &key, Algorithm::RS256).unwrap_err();
    assert_eq!(refused.kind(), &ErrorKind::InvalidAlgorithm);
}

/// A message need not be that of a token: RFC 4231 section 4.3, RFC 8032 section 7.1 (TEST 1), RFC 8037 appendix A.4.
#[test]
fn signatures_of_any_message() {
    let secret = DecodingKey::from_secret(b"Jefe");
    let ed = DecodingKey::from_ed_components("11qYAYKxCrfVS_7TyWQHOg7hcvPapiMlrwIaaPcHURo").unwrap();
    let asked = "what do ya want for nothing?";
    for (key, algorithm, message, signature) in [
        (&secret, Algorithm::HS256, asked, "W9zBRr9gdU5qBCQmCJV1x1oAPwidJzmDnexYuWTsOEM"),
        (&secret, Algorithm::HS384, asked, "r0XS43ZIQDFhf3jStYprG5x-9GT1oBtH5C7Dc2MiRF6OIkDKXmnix4syOez6shZJ"),
        (
            &secret,
            Algorithm::HS512,
            asked,
            "Fkt6e_z4GeLjlfvnO1bgo4e9ZCIugx_WECcM1-olBVSXWL91wFqZSm0DT2X48Ob9yuqxo01Ka0tjbgcKOLznNw",
        ),
        (
            &ed,
            Algorithm::EdDSA,
            "",
            "5VZDAMNgrHKQhuLMgG6CioSHfx645dl02HPgZSJJAVVfuIIVkKM7rMYeOXAc-bRr0lv18FlbviRlUUFDjnoQCw",
        ),
        (
            &ed,
            Algorithm::EdDSA,
            "eyJhbGciOiJFZERTQSJ9.RXhhbXBsZSBvZiBFZDI1NTE5IHNpZ25pbmc",
            "hgyY0il_MGCjP0JzlnLWG1PPOt7-09PGcvMg3AIbQR6dWbhijcNR4ki4iylGjg5BhVsPt9g7sVvpAr_MuM0KAg",
        ),
    ] {
        assert_eq!(crypto::verify(signature, message.as_bytes(), key, algorithm), Ok(true), "{algorithm} {message}");
        let other = format!("{message}?");
        assert_eq!(crypto::verify(signature, other.as_bytes(), key, algorithm), Ok(false), "{algorithm} {message}");
        if let (AlgorithmFamily::Hmac, true) = (algorithm.family(), cfg!(feature = "openssl")) {
            let key = EncodingKey::from_secret(b"Jefe");
            assert_eq!(crypto::sign(message.as_bytes(), &key, algorithm).unwrap(), signature);
        }
    }
    // a point that is not on its curve, and a secret that anyone has
    let off = DecodingKey::from_ec_der(&[4; 65]);
    for (key, algorithm) in [(off, Algorithm::ES256), (DecodingKey::from_secret(&[0; 32]), Algorithm::HS256)] {
        let refused = crypto::verify("AAAA", b"", &key, algorithm).unwrap_err();
        assert!(matches!(refused.kind(), ErrorKind::UnusableKey(_)), "{refused}");
    }
    let blank = crypto::sign(b"", &EncodingKey::from_secret(b""), Algorithm::HS256).unwrap_err();
    assert!(!blank.is_refusal());
}

/// Programs for earlier versions of the crate read tokens without a key so.
#[test]
#[allow(deprecated)]
fn signatures_that_are_ignored() {
    let mut ignoring = Validation::new(Algorithm::HS256);
    ignoring.insecure_disable_signature_validation();
    let nobody = DecodingKey::from_secret(b"");
    let issue = |header: &Header, claims: &Value| encode(header, claims, &EncodingKey::from_secret(SECRET)).unwrap();
    let token = issue(&Header::new(Algorithm::HS512), &json!({"sub": "b@b.com", "exp": 4102444800u64}));
    let forged = format!("{}.?", token.rsplit_once('.').unwrap().0);
    for token in [&token, &forged] {
        assert_eq!(decode::<Claims>(token, &nobody, &ignoring).unwrap().claims.sub, "b@b.com");
    }
    let kind_of = |token: &str| decode::<Claims>(token, &nobody, &ignoring).unwrap_err().into_kind();
    assert_eq!(kind_of(&issue(&Header::default(), &json!({"sub": "b@b.com", "exp": 1}))), ErrorKind::ExpiredSignature);
    assert_eq!(
        kind_of(&issue(&Header::default(), &json!({"sub": "b@b.com"}))),
        ErrorKind::MissingRequiredClaim("exp".to_string())
    );
    assert_eq!(kind_of(token.rsplit_once('.').unwrap().0), ErrorKind::InvalidToken);
    assert!(matches!(kind_of(&format!("{token}.AAAA")), ErrorKind::Base64(_)));
    // no other call verifies like this
    let key = DecodingKey::from_secret(SECRET);
    let refused = jsonwebtoken::Verifier::new(&key, &ignoring).unwrap_err();
    assert!(matches!(refused.kind(), ErrorKind::InvalidArgument(_)), "{refused}");
    let of_default = Validation { leeway: 0, ..Validation::default() };
    assert!(decode::<Claims>(&forged, &key, &of_default).unwrap_err().is_refusal());
}

#[test]
fn errors() {
    fn read(text: &str) -> Result<Value> {
        Ok(serde_json::from_str(text)?)
    }
    let error = read("{").unwrap_err();
    assert!(error.source().unwrap().is::<serde_json::Error>());
    assert_eq!(error, error.clone());
    assert_ne!(error, Error::from(ErrorKind::InvalidToken));
    assert!(matches!(error.into_kind(), ErrorKind::Json(_)));
    let utf8 = Error::from(String::from_utf8(vec![255]).unwrap_err());
    assert!(matches!(utf8.kind(), ErrorKind::Utf8(_)) && utf8.source().is_some());
    let missing = Error::from(ErrorKind::MissingRequiredClaim("aud".to_string()));
    assert_eq!(missing.to_string(), "Missing required claim: aud");
    assert_ne!(missing, ErrorKind::MissingRequiredClaim("iss".to_string()).into());
    assert_eq!(
        (Error::from(ErrorKind::InvalidToken).to_string(), utf8.to_string().as_str()),
        ("InvalidToken".to_string(), "UTF-8 error")
    );
    for (kind, is_refusal) in [
        (ErrorKind::InvalidSignature, true),
        (ErrorKind::NoKey, true),
        (ErrorKind::Fetching, false),
        (ErrorKind::OutOfMemory, false),
        (ErrorKind::UnusableKey("why".to_string()), false),
        (ErrorKind::MissingAlgorithm, false),
    ] {
        assert_eq!(Error::from(kind).is_refusal(), is_refusal);
    }
}

#[test]
fn what_threads_share_and_logs_show() {
    fn is_shared<T: Send + Sync + Unpin + 'static>() {}
    fn is_safe<T: std::panic::UnwindSafe>() {}
    is_shared::<DecodingKey>();
    is_shared::<EncodingKey>();
    is_shared::<Validation>();
    is_shared::<Header>();
    is_shared::<Jwk>();
    is_shared::<TokenData<Claims>>();
    is_shared::<Error>();
    is_shared::<jsonwebtoken::Verifier>();
    is_shared::<jsonwebtoken::KeySet>();
    is_shared::<jsonwebtoken::ByIssuer>();
    is_shared::<jsonwebtoken::Refusal>();
    is_safe::<jsonwebtoken::Verifier>();
    is_safe::<jsonwebtoken::KeySet>();
    is_safe::<jsonwebtoken::ByIssuer>();
    let (verifying, jwk) = (DecodingKey::from_secret(SECRET), json!({"kty": "oct", "k": "MDEyMzQ1"}));
    let jwk: Jwk = serde_json::from_value(jwk).unwrap();
    let unknown: Jwk = serde_json::from_value(json!({"kty": "AKP", "priv": "MDEyMzQ1"})).unwrap();
    let verifier = jsonwebtoken::Verifier::new(&verifying, &Validation::default()).unwrap();
    let shown = format!("{verifying:?} {:?} {jwk:?} {unknown:?} {verifier:?}", EncodingKey::from_secret(SECRET));
    assert!(!shown.contains("48, 49") && !shown.contains("0123456789") && !shown.contains("MDEyMzQ1"), "{shown}");
}
