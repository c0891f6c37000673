//! The numbers that calls are refused by, with names and sentences.

use std::fmt;

/// Why a call was refused. `refusal as u32` is the number that the library gives.
#[repr(u32)]
#[derive(Clone, Copy, Debug, PartialEq, Eq, Hash)]
pub enum Refusal {
    /// The length of RDRAM is not a multiple of 8 from 0 to 16,777,216.
    RdramLength = 1,
    /// DMEM does not have 4,096 bytes.
    DmemLength = 2,
    /// IMEM does not have 4,096 bytes.
    ImemLength = 3,
    /// The state is not sound: see [`is_sound`](crate::is_sound).
    UnsoundState = 4,
    /// A multiple of 4 that is not the address of a register.
    NoRegister = 5,
    /// The memory address of a record is not a multiple of 8, or is in no memory.
    MemoryAddress = 6,
    /// The kind of a record is unknown.
    UnknownKind = 7,
    /// A record ends before its body does.
    CutShort = 8,
    /// A recording has more than [`RECORDING_BYTES_MAX`](crate::RECORDING_BYTES_MAX) bytes.
    RecordingTooLong = 9,
    /// The address of a register is not a multiple of 4.
    Misaligned = 10,
    /// A burst has two lengths that differ, or more than 64 pairs.
    BurstLengths = 11,
    /// A record would end past the buffer or past the longest recording.
    NoRoom = 14,
}

impl Refusal {
    /// Every refusal, by its number.
    pub const ALL: [Refusal; 12] = [
        Refusal::RdramLength,
        Refusal::DmemLength,
        Refusal::ImemLength,
        Refusal::UnsoundState,
        Refusal::NoRegister,
        Refusal::MemoryAddress,
        Refusal::UnknownKind,
        Refusal::CutShort,
        Refusal::RecordingTooLong,
        Refusal::Misaligned,
        Refusal::BurstLengths,
        Refusal::NoRoom,
    ];

    /// The refusal with this number. There is none for 0, which is success, and for numbers that
    /// the library does not give.
    pub fn from_number(number: u32) -> Option<Refusal> {
        Refusal::ALL.into_iter().find(|r| r.number() == number)
    }

    /// The number that the library gives.
    pub const fn number(self) -> u32 {
        self as u32
    }

    /// One short sentence, the same as C's `ofersky_message`.
    pub const fn message(self) -> &'static str {
        message(self.number())
    }
}

impl fmt::Display for Refusal {
    fn fmt(&self, f: &mut fmt::Formatter<'_>) -> fmt::Result {
        f.write_str(self.message())
    }
}

impl std::error::Error for Refusal {}

/// One short sentence for the number of an answer, 0 included; the same as C's `ofersky_message`.
///
/// ```
/// let answer = ofersky::write_register(ofersky::power_up(), 0x0404_0020, 0).answer;
/// assert_eq!(ofersky::message(answer.number), "no register at this address");
/// ```
pub const fn message(number: u32) -> &'static str {
    match number {
        0 => "success",
        1 => "RDRAM length is not a multiple of 8 from 0 to 16,777,216",
        2 => "DMEM length is not 4,096",
        3 => "IMEM length is not 4,096",
        4 => "state is not sound",
        5 => "no register at this address",
        6 => "memory address not allowed",
        7 => "unknown record kind",
        8 => "record is cut short",
        9 => "recording is longer than 16,383 bytes",
        10 => "register address is not a multiple of 4",
        11 => "burst has two lengths that differ, or more than 64 pairs",
        14 => "record would end past the buffer or past 16,383 bytes",
        _ => "not a number of this library",
    }
}
