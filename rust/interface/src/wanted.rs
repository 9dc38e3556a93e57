//! How much a run tries, and from which seed.

use std::env;

/// Files in a run of the calls; COCKLEDRIFT_CALLS asks for another count.
pub fn files() -> usize {
    number("COCKLEDRIFT_CALLS").map_or(100_000, |count| count as usize)
}

/// The seed; COCKLEDRIFT_SEED asks for another.
pub fn seed() -> u64 {
    number("COCKLEDRIFT_SEED").unwrap_or(0x3d19_0021)
}

fn number(name: &str) -> Option<u64> {
    let text = env::var(name).ok()?;
    Some(text.parse().unwrap_or_else(|_| panic!("{name} is no number: {text}")))
}
