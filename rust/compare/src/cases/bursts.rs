//! Bursts of register writes: pairs made at random.

use crate::cases::addresses::{misaligned, outside, register};
use crate::cases::values::value_for;
use crate::data::call::{Call, LONGEST_BURST};
use model::machine::SP_STATUS;
use random::Random;

/// An address and a value.
pub type Pair = (u32, u32);

pub fn burst(pairs: &[Pair]) -> Call {
    let (addresses, values) = pairs.iter().copied().unzip();
    Call::WriteRegisters { addresses, values }
}

/// So many pairs that are accepted.
pub fn good_pairs(random: &mut Random, length: usize, rdram: usize) -> Vec<Pair> {
    let mut pair = || {
        let address = register(random);
        (address, value_for(random, address, rdram))
    };
    (0..length).map(|_| pair()).collect()
}

/// An address that is refused by this number, 10 or 5.
pub fn refused_by(random: &mut Random, number: u32) -> u32 {
    match number {
        10 => misaligned(random),
        _ => outside(random),
    }
}

/// A burst of any length. Often a pair or two of it are refused, and at times the lengths are not
/// allowed.
pub fn any_burst(random: &mut Random, rdram: usize) -> Call {
    let length = match random.below(8) {
        0 => random.pick(&[0, 1, 63, 64, 65]),
        1 => random.index(LONGEST_BURST + 3),
        _ => random.index(10),
    };
    let mut pairs = good_pairs(random, length, rdram);
    let bad = match random.below(6) {
        0 => 1,
        1 => 2,
        _ => 0,
    };
    for _ in 0..bad.min(length) {
        let any = random.index(length);
        let place = random.pick(&[0, any, length - 1]);
        let number = random.pick(&[10, 5]);
        pairs[place].0 = refused_by(random, number);
    }
    let mut call = burst(&pairs);
    if random.once_in(16) {
        lengthen(&mut call, random.once_in(2));
    }
    call
}

/// An address more than there are values, or a value more.
pub fn lengthen(call: &mut Call, with_address: bool) {
    if let Call::WriteRegisters { addresses, values } = call {
        match with_address {
            true => addresses.push(SP_STATUS),
            false => values.push(2),
        }
    }
}
