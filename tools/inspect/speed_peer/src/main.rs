//! The measurements of jwt_bench, by the Rust crate jsonwebtoken over ring.

use jsonwebtoken::errors::Result;
use jsonwebtoken::{decode, decode_header, encode, Algorithm, DecodingKey, EncodingKey, Header, Validation};
use serde_json::Value;
use std::hint::black_box;
use std::time::Instant;

/// The values that the work needs, whose making is not measured.
struct Prepared {
    decoding: DecodingKey,
    encoding: EncodingKey,
    validation: Validation,
    header: Header,
    claims: Value,
}

impl Prepared {
    fn new(work: &str, text: &str) -> Result<Prepared> {
        Ok(Prepared {
            decoding: DecodingKey::from_secret(b"secret"),
            encoding: EncodingKey::from_secret(b"secret"),
            validation: Validation::new(Algorithm::HS256),
            header: Header::new(Algorithm::HS256),
            claims: if work == "encode" { serde_json::from_str(text)? } else { Value::Null },
        })
    }

    /// Does the work on the text this many times.
    fn repeat(&self, work: &str, text: &str, count: u64) -> Result<()> {
        for _ in 0..count {
            let token = black_box(text);
            match work {
                "decode" => drop(black_box(decode::<Value>(token, &self.decoding, &self.validation)?)),
                "encode" => drop(black_box(encode(&self.header, black_box(&self.claims), &self.encoding)?)),
                _ => drop(black_box(decode_header(token)?)),
            }
        }
        Ok(())
    }
}

/// Runs the program with its arguments: the work, a file, and the number of times; a tenth of that warms up.
fn main() -> std::result::Result<(), Box<dyn std::error::Error>> {
    let words: Vec<String> = std::env::args().collect();
    let (work, count) = (&words[1], words[3].parse()?);
    let text = std::fs::read_to_string(&words[2])?;
    let text = text.strip_suffix('\n').unwrap_or(&text);
    let prepared = Prepared::new(work, text)?;
    prepared.repeat(work, text, count / 10)?;
    let start = Instant::now();
    prepared.repeat(work, text, count)?;
    println!("{:.3}", start.elapsed().as_nanos() as f64 / count as f64);
    Ok(())
}
