//! Measures the Rust package, and the crate jsonwebtoken over ring: speed WORK FILE COUNT verifies the token of a file as often, with the
//! key of the file, and prints the nanoseconds for one. WORK is peer, verifier or decode, with one key for all, or first, which times the
//! first `decode` of as many keys.

use serde::Deserialize;
use serde_json::Value;
use std::error::Error;
use std::hint::black_box;
use std::time::{Duration, Instant};

type Taken = Result<Duration, Box<dyn Error>>;

/// What a file has.
#[derive(Deserialize)]
struct Given {
    token: String,
    jwk: Value,
    validation: Value,
}

#[derive(Deserialize)]
#[allow(dead_code)] // that they are read is measured
struct Session {
    sub: String,
    company: String,
    exp: u64,
}

/// Returns what so many calls take, after a tenth of them and two, which warm up.
fn time_of<T>(count: u32, mut call: impl FnMut() -> T) -> Duration {
    (0..count / 10 + 2).for_each(|_| drop(black_box(call())));
    let begin = Instant::now();
    (0..count).for_each(|_| drop(black_box(call())));
    begin.elapsed()
}

fn of_peer(given: &Given, count: u32) -> Taken {
    use jsonwebtoken::{decode, jwk::Jwk, Algorithm, DecodingKey, Validation};
    let key = DecodingKey::from_jwk(&Jwk::deserialize(&given.jwk)?)?;
    let validation = Validation::new(Algorithm::deserialize(&given.validation["algorithms"][0])?);
    Ok(time_of(count, || decode::<Session>(black_box(&given.token), &key, &validation).unwrap()))
}

fn of_package(work: &str, given: &Given, count: u32) -> Taken {
    use jsonwebtoken_proved::{decode, jwk::Jwk, Algorithm, DecodingKey, Validation, Verifier};
    let make = || DecodingKey::from_jwk(&Jwk::deserialize(&given.jwk).unwrap()).unwrap();
    let validation = Validation::new(Algorithm::deserialize(&given.validation["algorithms"][0])?);
    let decodes = |key: &DecodingKey| decode::<Session>(black_box(&given.token), key, &validation).unwrap();
    let of_new_key = |sum: Duration| {
        let (key, begin) = (make(), Instant::now());
        drop(black_box(decodes(&key)));
        sum + begin.elapsed()
    };
    let (key, verifier) = (make(), Verifier::new(&make(), &validation)?);
    match work {
        "verifier" => Ok(time_of(count, || verifier.decode::<Session>(black_box(&given.token)).unwrap())),
        "decode" => Ok(time_of(count, || decodes(&key))),
        "first" => Ok((0..count).fold(Duration::ZERO, |sum, _| of_new_key(sum))),
        _ => Err(format!("no work {work}").into()),
    }
}

fn main() -> Result<(), Box<dyn Error>> {
    let words: Vec<String> = std::env::args().collect();
    let (work, count) = (&words[1], words[3].parse()?);
    let given = serde_json::from_str(&std::fs::read_to_string(&words[2])?)?;
    let taken = if work == "peer" { of_peer(&given, count)? } else { of_package(work, &given, count)? };
    println!("{:.3}", taken.as_nanos() as f64 / f64::from(count));
    Ok(())
}
