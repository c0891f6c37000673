//! The lengths of the memories that a call is lent: allowed ones, and ones that are not.

use crate::data::memory::{Lent, BANK};
use random::Random;

/// A length of RDRAM that is allowed and not large.
pub fn rdram_length(random: &mut Random) -> usize {
    match random.below(8) {
        0 => random.pick(&[0, 8, 16, 24]),
        1 => random.pick(&[4_096, 65_536, 4_088, 8_200]),
        2 => random.index(1_024) * 8,
        3 | 4 => 4_096,
        _ => 32_768,
    }
}

/// Good lengths, and bytes of any pattern.
pub fn good_lengths(random: &mut Random) -> Lent {
    Lent::new(rdram_length(random), random.below(1 << 20).into())
}

/// Lengths of which each may be bad, so that each order of refusals comes up.
pub fn odd_lengths(random: &mut Random) -> Lent {
    let bad_rdram = [1, 4, 7, 9, 4_095, 4_097, 32_764, 32_769];
    let mut lent = good_lengths(random);
    if random.once_in(3) {
        lent.rdram = random.pick(&bad_rdram);
    }
    lent.dmem = bank_length(random);
    lent.imem = bank_length(random);
    lent
}

fn bank_length(random: &mut Random) -> usize {
    if random.once_in(3) {
        random.pick(&[0, 1, 8, 4_088, 4_095, 4_097, 4_104, 8_192])
    } else {
        BANK
    }
}
