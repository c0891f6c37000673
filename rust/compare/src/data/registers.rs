//! The addresses of the registers, and the copies in which those of the DP stand.

use model::machine::REGISTERS;
use std::ops::RangeInclusive;

/// The DP registers and all their mirrors.
const DP_BLOCK: RangeInclusive<u32> = 0x0410_0000..=0x041F_FFFF;

/// The bytes of one copy of the DP registers, and the number of copies.
const COPY_BYTES: u32 = 0x20;
pub const COPIES: u32 = 0x8000;

/// The same place in this copy of the DP registers, for an address of theirs; an SP register has no
/// mirrors.
pub fn in_copy(address: u32, copy: u32) -> u32 {
    if DP_BLOCK.contains(&address) {
        DP_BLOCK.start() + COPY_BYTES * copy + address % COPY_BYTES
    } else {
        address
    }
}

pub fn first_copy(address: u32) -> u32 {
    in_copy(address, 0)
}

pub fn is_register(address: u32) -> bool {
    REGISTERS.contains(&first_copy(address))
}
