//! The random numbers of a test: the same ones on every run, because a difference must be there
//! again on the next one, unless COMPARE_SEED asks for others.

use random::Random;

/// The numbers of the test with this number.
pub fn random_of_test(test: u64) -> Random {
    let other = std::env::var("COMPARE_SEED").ok();
    let other = other.and_then(|seed| seed.parse().ok()).unwrap_or(0u64);
    Random::new(test.wrapping_add(other.wrapping_mul(1_000_003)))
}
