//! Tokens of all algorithms, which Python's cryptography signed, parts of tokens that nothing verifies, and secrets that the library refuses.

use jsonwebtoken_proved::dangerous::{insecure_decode, insecure_decode_claims};
use jsonwebtoken_proved::errors::{Error, ErrorKind};
use jsonwebtoken_proved::jwk::{Jwk, ThumbprintHash};
use jsonwebtoken_proved::{
    Algorithm, DecodingKey, EncodingKey, Header, KeySet, Rotation, Validation, Verified, Verifier, decode_header,
    encode, signed_part,
};
use serde_json::{Value, json};
use std::io::Cursor;

mod repository;

/// Returns the rows of a file of the repository.
fn rows(path: &str) -> Vec<Value> {
    repository::file(path).lines().map(|it| serde_json::from_str(it).unwrap()).collect()
}

/// Returns the key of the numbers of a JSON Web Key.
fn of_numbers(jwk: &Value) -> Result<DecodingKey, Error> {
    let text = |name: &str| jwk[name].as_str().unwrap();
    match text("kty") {
        "RSA" => DecodingKey::from_rsa_components(text("n"), text("e")),
        "EC" => DecodingKey::from_ec_components(text("x"), text("y")),
        "OKP" => DecodingKey::from_ed_components(text("x")),
        _ => DecodingKey::from_jwk(&serde_json::from_value(jwk.clone()).unwrap()),
    }
}

#[test]
fn all_algorithms() {
    let mut seen = Vec::new();
    for row in rows("crates/jwt_vectors/data/standard.jsonl") {
        let (wanted, validation) = (&row["want"]["ok"], row["validation"].as_object());
        if !wanted.is_object() || validation.map_or(true, |it| it.len() != 1) {
            continue;
        }
        let algorithm: Algorithm = wanted["header"]["alg"].as_str().unwrap().parse().unwrap();
        for algorithms in [&[algorithm], Algorithm::ALL] {
            let validation = Validation { algorithms: algorithms.to_vec(), ..Validation::default() };
            let verifier = match row["call"].as_str() {
                Some("decode_with_set") => Verifier::from_jwk_set(&row["set"].to_string(), &validation),
                Some("decode") if row["key"]["jwk"].is_object() => {
                    let jwk: Jwk = serde_json::from_value(row["key"]["jwk"].clone()).unwrap();
                    let (key, same) = (DecodingKey::from_jwk(&jwk).unwrap(), of_numbers(&row["key"]["jwk"]).unwrap());
                    let thumbprint = |key| Jwk::from_decoding_key(key, None)?.thumbprint(ThumbprintHash::SHA256);
                    assert_eq!(thumbprint(&key).unwrap(), thumbprint(&same).unwrap());
                    Verifier::new(&same, &validation)
                }
                _ => continue,
            };
            let (token, now) = (row["token"].as_str().unwrap(), row["now"].as_u64().unwrap());
            let verified = verifier.unwrap().decode_json(token, now).unwrap();
            assert_eq!(serde_json::from_str::<Value>(&verified.claims).unwrap(), wanted["claims"]);
            assert_eq!(serde_json::to_value(decode_header(token).unwrap()).unwrap(), wanted["header"]);
            assert_eq!(signed_part(token).unwrap().algorithm, algorithm);
            seen.push((algorithm, algorithms.len()));
        }
    }
    for it in Algorithm::ALL {
        assert!(seen.contains(&(*it, 1)) && seen.contains(&(*it, 12)), "{it}");
    }
}

/// One verifier of a key set accepts tokens with each listed algorithm, whatever its family. Python's cryptography signed them.
#[test]
fn algorithms_of_several_families() {
    let algorithms = vec![Algorithm::RS256, Algorithm::ES256, Algorithm::EdDSA];
    let validation = Validation { algorithms, ..Validation::default() };
    let rows = rows("crates/jwt_vectors/data/standard.jsonl");
    let rows: Vec<&Value> = rows.iter().filter(|it| it["id"].as_str().unwrap().ends_with(", by its kid")).collect();
    assert!(rows.len() == Algorithm::ALL.len() && rows.iter().all(|it| it["set"] == rows[0]["set"]));
    let verifier = Verifier::from_jwk_set(&rows[0]["set"].to_string(), &validation).unwrap();
    for row in rows {
        let algorithm = row["want"]["ok"]["header"]["alg"].as_str().unwrap().parse().unwrap();
        let wanted = if validation.algorithms.contains(&algorithm) { None } else { Some(ErrorKind::InvalidAlgorithm) };
        let refusal = verifier.decode_json(row["token"].as_str().unwrap(), 0).err();
        assert_eq!(refusal.map(|it| it.error.into_kind()), wanted, "{algorithm}");
    }
}

/// Returns what a row wants of a call: a value, or the name of an error's kind.
fn answer(result: Result<Value, Error>) -> Value {
    match result {
        Ok(value) => json!({ "ok": value }),
        Err(error) => json!({ "err": format!("{:?}", error.kind()).split('(').next() }),
    }
}

#[test]
fn parts_that_are_not_verified() {
    let mut seen = 0;
    let files = ["tokens", "unverified_tokens"].map(|it| rows(&format!("crates/jwt_vectors/data/{it}.jsonl")));
    for row in files.iter().flatten() {
        let token = match &row["token"] {
            Value::String(token) => token,
            _ => continue,
        };
        let read = match row["call"].as_str().unwrap() {
            "decode_header" => decode_header(token).map(|it| json!(it)),
            "dangerous::insecure_decode" => {
                insecure_decode::<Value>(token).map(|it| json!({"claims": it.claims, "header": it.header}))
            }
            "dangerous::insecure_decode_claims" => insecure_decode_claims(token),
            _ => continue,
        };
        assert_eq!(answer(read), row["want"], "{row}");
        seen += 1;
    }
    assert!(seen > 50, "{seen}");
}

fn has_float(value: &Value) -> bool {
    match value {
        Value::Number(number) => number.is_f64(),
        Value::Array(items) => items.iter().any(has_float),
        Value::Object(members) => members.values().any(has_float),
        _ => false,
    }
}

/// A header that the library accepts is read here too, and is the same. Only floats are read besides, as by the crate jsonwebtoken.
#[test]
fn headers() {
    let mut seen = [0, 0];
    let rows = rows("crates/jwt_vectors/data/headers.jsonl");
    for row in rows.iter().filter(|it| it["call"] == "Header::from_value" && it["text"].is_null()) {
        let wanted = &row["want"]["ok"];
        let wanted = if wanted["jwk"].is_string() { &wanted["value"] } else { wanted };
        let value: Value =
            row["value_json"].as_str().map_or_else(|| row["value"].clone(), |it| serde_json::from_str(it).unwrap());
        match serde_json::from_value::<Header>(value.clone()) {
            Ok(header) if wanted.is_object() => assert_eq!(json!(header), *wanted),
            Ok(_) => assert!(has_float(&value), "{row}"),
            Err(_) => assert!(wanted.is_null(), "{row}"),
        }
        seen[usize::from(wanted.is_null())] += 1;
    }
    assert!(seen[0] > 50 && seen[1] > 50, "{seen:?}");
}

/// Returns the secret of a row.
fn secret(row: &Value) -> Vec<u8> {
    match (row["text"].as_str(), row["hex"].as_str()) {
        (Some(text), _) => text.as_bytes().to_vec(),
        (_, hex) => {
            let hex = hex.unwrap();
            (0..hex.len()).step_by(2).map(|at| u8::from_str_radix(&hex[at..at + 2], 16).unwrap()).collect()
        }
    }
}

#[test]
fn texts_of_keys_are_no_secrets() {
    let rows = rows("tests/secrets.jsonl");
    let mut refusals = 0;
    for row in &rows {
        let (secret, refused) = (secret(row), row["refused"] == true);
        let (verifying, issuing) = (DecodingKey::from_secret(&secret), EncodingKey::from_secret(&secret));
        let jwk = Jwk::from_encoding_key(&EncodingKey::from_secret(&secret), Algorithm::HS256);
        let made = Verifier::new(&verifying, &Validation::default()).err();
        let issued = encode(&Header::default(), &json!({}), &issuing).err();
        for error in [made, issued, jwk.as_ref().err().cloned()] {
            assert_eq!(error.is_some(), refused, "{row}");
            assert!(error.map_or(true, |it| matches!(it.kind(), ErrorKind::UnusableKey(_))), "{row}");
        }
        if let Ok(mut jwk) = jwk {
            jwk.common.key_id = Some("a".to_string());
            let set = json!({"keys": [{"kty": "AKP", "kid": "b"}, jwk]}).to_string();
            assert!(Verifier::from_jwk_set(&set, &Validation::default()).is_ok(), "{row}");
        }
        refusals += usize::from(refused);
    }
    assert!(refusals > 50 && rows.len() > refusals + 50, "{refusals}");
}

/// Returns whether the keys of a row are one key that is in no set.
fn is_alone(row: &Value) -> bool {
    row["id"].as_str().unwrap().starts_with("alone: ")
}

/// Returns the claims of a row's token, or the error, by each way to verify with the row's keys: by a verifier of the set and by a set that is
/// fetched, or by one key. The ways of a set refuse one key.
fn claims_of(row: &Value) -> Vec<Result<Value, Error>> {
    let algorithms = serde_json::from_value(row["algorithms"].clone()).unwrap();
    let validation = Validation { algorithms, ..Validation::default() };
    let (token, now) = (row["token"].as_str().unwrap(), row["time"].as_u64().unwrap());
    let text = row["set"].as_str().unwrap().to_string();
    let by = |verifier: Verifier| verifier.decode_json(token, now);
    let by_key = || {
        let key = DecodingKey::from_jwk(&serde_json::from_str::<Jwk>(&text)?)?;
        Verifier::new(&key, &validation)
    };
    let mut made = vec![Verifier::from_jwk_set(&text, &validation).map(by)];
    let fetched = text.clone();
    let set = KeySet::new(move || Ok::<_, Error>(Cursor::new(fetched.clone())), Rotation::default());
    made.push(set.map(|it| it.decode_json(token, &validation, now)));
    if is_alone(row) {
        for it in &made {
            assert!(matches!(it.as_ref().unwrap_err().kind(), ErrorKind::UnusableKey(_)), "{row}");
        }
        made = vec![by_key().map(by)];
    }
    let claims = |it: Verified<String>| serde_json::from_str(&it.claims).unwrap();
    made.into_iter().map(|it| Ok(it?.map(claims)?)).collect()
}

/// Sets with keys that are not usable, and keys that stand alone: the answers are the rows'.
#[test]
fn odd_sets() {
    let mut seen = [0, 0];
    for row in rows("crates/jwt_vectors/data/odd_sets.jsonl") {
        for claims in claims_of(&row) {
            seen[usize::from(claims.is_ok())] += 1;
            let wanted = match row["want"]["err"].as_str() {
                // from_jwk has several kinds for a text that the library does not read
                Some("BadKey") if is_alone(&row) => {
                    let kinds = ["Json", "Base64", "UnsupportedAlgorithm"].map(|it| json!({ "err": it }));
                    assert!(kinds.contains(&answer(claims)), "{row}");
                    continue;
                }
                Some("BadKey" | "NoUsableKey") if row["algorithms"] == json!([]) => "MissingAlgorithm",
                Some("BadKey" | "NoUsableKey") => "UnusableKey",
                // no listed algorithm is of the key's family
                Some("InvalidKeyFormat") => "InvalidAlgorithm",
                Some(wanted) => wanted,
                None => {
                    assert_eq!(claims.as_ref(), Ok(&row["want"]["ok"]), "{row}");
                    continue;
                }
            };
            let is_of_token = !["MissingAlgorithm", "UnusableKey"].contains(&wanted);
            assert_eq!(claims.as_ref().err().map(Error::is_refusal), Some(is_of_token), "{row}");
            assert_eq!(answer(claims), json!({ "err": wanted }), "{row}");
        }
    }
    assert!(seen[0] > 100 && seen[1] > 100, "{seen:?}");
}
