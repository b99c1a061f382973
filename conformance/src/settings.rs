//! What the random tests take from the environment.

use std::env;
use std::time::{SystemTime, UNIX_EPOCH};

/// A number from the environment; a word that is none stops the test.
fn number(name: &str) -> Option<u64> {
    let word = env::var(name).ok()?;
    let number = word.parse();
    Some(number.unwrap_or_else(|_| panic!("{name} is no number: {word}")))
}

/// `TEQHARIS_SEED`, else a seed from the clock.
pub fn seed() -> u64 {
    number("TEQHARIS_SEED").unwrap_or_else(|| {
        let now = SystemTime::now().duration_since(UNIX_EPOCH);
        now.map_or(1, |now| now.as_nanos() as u64 % 1_000_000_007)
    })
}

/// `TEQHARIS_REQUESTS`, else 200,000: how many requests there are.
pub fn requests() -> u64 {
    number("TEQHARIS_REQUESTS").unwrap_or(200_000)
}

/// `TEQHARIS_ONLY`: the number of the one request that is wanted.
pub fn only() -> Option<u64> {
    number("TEQHARIS_ONLY")
}

/// How to repeat one request alone.
pub fn again(seed: u64, number: u64) -> String {
    format!("seed {seed}, request {number}; alone: TEQHARIS_SEED={seed} TEQHARIS_ONLY={number}")
}
