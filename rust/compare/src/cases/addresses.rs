//! Addresses near the edges of the rules, of registers and of memory.

use crate::data::memory::ADDRESS_BITS;
use crate::data::registers::{in_copy, is_register, COPIES};
use model::machine::REGISTERS;
use random::Random;

/// An RDRAM address, often near 0, near the lent length or near 2^24.
pub fn ram_address(random: &mut Random, rdram: usize) -> u32 {
    let length = rdram as u32;
    let near = random.below(8) * 8;
    let address = match random.below(8) {
        0 => near,
        1 => length.wrapping_add(near).wrapping_sub(32),
        2 => near.wrapping_sub(32),
        3 => random.next_u32(),
        4 => 0u32.wrapping_sub(random.below(0x200) * 8),
        _ => random.below(length + 64),
    };
    address & ADDRESS_BITS
}

/// An SP address, often near the end of a bank.
pub fn sp_address(random: &mut Random) -> u32 {
    let address = match random.below(4) {
        0 => random.pick(&[0, 8, 0xFF0, 0xFF8, 0x1000, 0x1008, 0x1FF0, 0x1FF8]),
        1 => 0xFC0 + random.next_u32() % 0x80 + (random.next_u32() & 0x1000),
        _ => random.next_u32(),
    };
    address & 0x1FF8
}

/// In any copy, often the second or the last.
pub fn in_any_copy(random: &mut Random, address: u32) -> u32 {
    let copy = match random.below(4) {
        0 => 1,
        1 => COPIES - 1,
        _ => random.below(COPIES),
    };
    in_copy(address, copy)
}

/// A register's address, at times in a mirror.
pub fn register(random: &mut Random) -> u32 {
    let address = random.pick(&REGISTERS);
    if random.once_in(2) {
        in_any_copy(random, address)
    } else {
        address
    }
}

/// An address that is no register's, for either reason.
pub fn not_register(random: &mut Random) -> u32 {
    if random.once_in(2) {
        misaligned(random)
    } else {
        outside(random)
    }
}

/// An address that is not a multiple of 4: within the blocks of registers, mirrors too, or outside.
pub fn misaligned(random: &mut Random) -> u32 {
    let word = if random.once_in(2) {
        register(random)
    } else {
        outside(random)
    };
    word + 1 + random.below(3)
}

/// A multiple of 4 that is no register's address: beside the blocks, or any.
pub fn outside(random: &mut Random) -> u32 {
    let beside = [0x0403_FFFC, 0x0404_0020, 0x040F_FFFC, 0x0420_0000];
    let far = [0, 0x0404_0040, 0x0407_FFE0, 0xFFFF_FFFC];
    loop {
        let near = register(random);
        let address = match random.below(4) {
            0 => near - 0x20 + random.below(16) * 4,
            1 => near ^ 4 << random.below(30),
            2 => random.pick(&[beside, far].concat()),
            _ => random.next_u32() & !3,
        };
        if !is_register(address) {
            return address;
        }
    }
}

/// The first and last address of each block, in the DP's of the first and the last copy; those
/// beside them; and farther ones with the same low bits.
pub fn edge_addresses() -> Vec<u32> {
    let edges = [
        0,
        0x00FF_FFF8,
        0x03EF_FFF8,
        0x0400_0000,
        0x0400_1000,
        0x0400_1FF8,
        0x0404_0000,
        0x0404_001C,
        0x0410_0000,
        0x0410_001C,
        0x041F_FFE0,
        0x041F_FFFC,
    ];
    let same_low_bits = [0x1000, 0x2000, -0x1000, 0x2000_0000, -0x6000_0000, i32::MIN];
    let farther = [-0x20, 0x20, 0x21, 0x24, 0x40, 0x1002];
    let steps = (-9..=9).chain(farther).chain(same_low_bits);
    let beside = |edge: u32| {
        steps
            .clone()
            .map(move |step| edge.wrapping_add_signed(step))
    };
    edges.into_iter().flat_map(beside).collect()
}

/// An address that kinds 8 and 9 allow, mostly one that is lent.
pub fn memory_address(random: &mut Random, rdram: usize) -> u32 {
    match random.below(8) {
        0 => random.pick(&[0x03EF_FFF8, 0x0100_0000, 0x00FF_FFF8, 0x0080_0000]),
        1 => random.below(0x03F0_0000 / 8) * 8,
        2..=4 => 0x0400_0000 + random.below(0x400) * 8,
        _ => ram_address(random, rdram),
    }
}

/// An address that kinds 8 and 9 do not allow.
pub fn bad_memory_address(random: &mut Random, rdram: usize) -> u32 {
    loop {
        let good = memory_address(random, rdram);
        let address = match random.below(4) {
            0 => good | random.below(8),
            1 => random.pick(&[0x03F0_0000, 0x03FF_FFF8, 0x0400_2000, 0x0400_3000, u32::MAX]),
            2 => good | 1 << (27 + random.below(5)),
            _ => random.next_u32(),
        };
        let banks = (0x0400_0000..0x0400_2000).contains(&address);
        if address % 8 != 0 || address >= 0x03F0_0000 && !banks {
            return address;
        }
    }
}
