//! Numbers near the edges of the rules: lengths, budgets, ticks and register values.

use crate::cases::addresses::{ram_address, sp_address};
use crate::data::registers::first_copy;
use crate::data::words_left::transfer_words;
use random::Random;

/// LEN, ROW or SKIP.
pub fn length(random: &mut Random) -> u32 {
    match random.below(4) {
        0 => random.pick(&[0, 8, 0xFF0, 0xFF8]),
        1 => random.next_u32() & 0xFF8,
        _ => random.next_u32() & 0x78,
    }
}

pub fn count(random: &mut Random) -> u32 {
    match random.below(4) {
        0 => random.pick(&[0, 1, 2, 255, 254]),
        1 => random.below(256),
        _ => random.below(4),
    }
}

/// A length word of which most transfers stay small: a very long one takes long and shows no more.
pub fn length_word(random: &mut Random) -> u32 {
    let (len, mut count) = (length(random), count(random));
    if transfer_words(len, count) > 1_024 && !random.once_in(40) {
        count %= 3;
    }
    // The bits that are not kept, at times.
    let noise = random.next_u32() & 0x0070_0007 & random.pick(&[0, 0, u32::MAX]);
    length(random) << 20 | count << 12 | len | noise
}

/// A budget: none, one word, what is left, about what the queue holds, or more.
pub fn budget(random: &mut Random, left: u64) -> u32 {
    let left = left as u32;
    let budget = match random.below(13) {
        0 => 0,
        1 | 2 => 1,
        3 => 2,
        4 | 5 => left,
        6 => left.wrapping_sub(1),
        7 => left.wrapping_add(1),
        8 => u32::MAX,
        9 => 0x8000_0000 | random.next_u32(),
        10 => 30 + random.below(5),
        _ => random.below(left.min(300) + 2),
    };
    // A run through a very long transfer is wanted at times only.
    if left > 4_096 && budget > 4_096 && !random.once_in(20) {
        budget % 600
    } else {
        budget
    }
}

/// A 32-bit number with few bits, many bits or any.
pub fn register_value(random: &mut Random) -> u32 {
    match random.below(8) {
        0 => 1 << random.below(32),
        1 => 1 << random.below(32) | 1 << random.below(32),
        2 => 3 << random.below(31),
        3 => random.pick(&[0, u32::MAX, 0x8000_0000, 0x7FFF_FFFF, 0x0100_0000]),
        4 => !(1 << random.below(32)),
        5 => random.next_u32() & random.next_u32() & random.next_u32(),
        _ => random.next_u32(),
    }
}

/// A value that suits a register, or any.
pub fn value_for(random: &mut Random, address: u32, rdram: usize) -> u32 {
    if random.once_in(3) {
        return register_value(random);
    }
    match first_copy(address) & 0x000F_FFFF {
        0x4_0000 => sp_address(random),
        0x4_0008 | 0x4_000C => length_word(random),
        0x4_0004 | 0..=4 => ram_address(random, rdram) | random.next_u32() & 7,
        _ => register_value(random),
    }
}

/// A tick, often one that takes a counter near 2^24 past it.
pub fn ticks(random: &mut Random) -> u32 {
    match random.below(4) {
        0 => random.pick(&[0, 1, 0xFF_FFFF, 0x100_0000, 0x100_0001, u32::MAX]),
        1 => random.next_u32(),
        2 => random.next_u32() & 0xFF_FFFF,
        _ => random.below(300),
    }
}

/// A kind that no record has.
pub fn unknown_kind(random: &mut Random) -> u8 {
    match random.below(256) as u8 {
        1..=10 => random.pick(&[0, 11, 0x81, 0x8A, 255]),
        kind => kind,
    }
}
