//! Records to be written, and the buffers and places that they are written to.

use crate::cases::addresses::{bad_memory_address, memory_address, not_register, register};
use crate::cases::values::{budget, register_value, unknown_kind, value_for};
use crate::data::recording::{record_length, LONGEST};
use ofersky::Record;
use random::Random;

/// The length of RDRAM that memory addresses are picked for.
const RDRAM: usize = 4_096;

/// A record of any kind. At times its kind is unknown or its address is not allowed.
pub fn any_record(random: &mut Random) -> Record {
    let kind = match random.below(16) {
        0 => unknown_kind(random),
        _ => known_kind(random),
    };
    let record = good_record(random, kind);
    if random.once_in(3) {
        let address = other_address(random, kind);
        return Record { address, ..record };
    }
    record
}

pub fn known_kind(random: &mut Random) -> u8 {
    1 + random.below(10) as u8
}

/// A record of this kind whose address is allowed. What its kind does not have is anything: an
/// address, or the upper half of the value.
pub fn good_record(random: &mut Random, kind: u8) -> Record {
    let address = match kind {
        1 | 2 => register(random),
        8 | 9 => memory_address(random, RDRAM),
        _ => other_address(random, kind) & random.pick(&[0, u32::MAX]),
    };
    let low = match kind {
        1 | 2 => value_for(random, address, RDRAM),
        3 | 4 | 10 => budget(random, 20),
        _ => register_value(random),
    };
    let high = match kind {
        10 => budget(random, 20),
        _ => register_value(random) & random.pick(&[0, u32::MAX]),
    };
    Record {
        value: u64::from(high) << 32 | u64::from(low),
        address,
        kind,
    }
}

/// An address that this kind does not allow, if it has one; also one that another kind would allow.
fn other_address(random: &mut Random, kind: u8) -> u32 {
    match kind {
        1 | 2 if random.once_in(4) => memory_address(random, RDRAM),
        1 | 2 => not_register(random),
        _ if random.once_in(3) => register(random),
        _ => bad_memory_address(random, RDRAM),
    }
}

/// The length of a buffer: some records long, or about as long as a recording may be, or longer.
pub fn buffer_length(random: &mut Random) -> usize {
    match random.below(20) {
        0 => random.pick(&[LONGEST - 1, LONGEST, LONGEST + 1, 20_000, 70_000]),
        1..=4 => random.index(16),
        _ => random.index(80),
    }
}

/// A place in a buffer of this length: where the record just fits, just does not or begins past the
/// end, and any other.
pub fn place_for(random: &mut Random, kind: u8, buffer: usize) -> usize {
    let room = buffer.min(LONGEST);
    let last = room.saturating_sub(record_length(kind).unwrap_or(1));
    match random.below(16) {
        0 => 0,
        1 | 2 => last,
        3 | 4 => last + 1,
        5 => last + random.index(16),
        6 => buffer + random.index(3),
        7 => usize::MAX - random.index(16),
        8 => last | 1 << random.pick(&[16, 31, 32, 63]),
        9 => random.index(buffer + 1),
        _ => random.index(last + 1),
    }
}
