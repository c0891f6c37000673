//! Records of a recording.

/// A record. `value` is the second field of kinds 1, 2, 8 and 9, and the only field of kinds 3, 4
/// and 5; of kind 10 its upper half is the SP's budget and its lower half the budget of the DP and
/// of the consumer. A field that a kind does not have is 0 in a record that was read, and is
/// ignored in one that is written.
#[repr(C)]
#[derive(Clone, Copy, Debug, Default, PartialEq, Eq)]
pub struct Record {
    /// The value written or expected, the budget, the ticks, or the word.
    pub value: u64,
    /// The address of a register, or of memory: RDRAM from 0 on, [`RECORD_DMEM`] and
    /// [`RECORD_IMEM`].
    pub address: u32,
    /// A byte, so that a record of an unknown kind can be handed over, too; [`Kind`] has the names.
    pub kind: u8,
}

/// Where DMEM begins in records of kinds 8 and 9.
pub const RECORD_DMEM: u32 = 0x0400_0000;
/// Where IMEM begins in records of kinds 8 and 9.
pub const RECORD_IMEM: u32 = 0x0400_1000;

/// The kinds of records. `kind as u8` is the byte that a record begins with.
#[repr(u8)]
#[derive(Clone, Copy, Debug, PartialEq, Eq, Hash)]
pub enum Kind {
    /// Writes a register: address, value.
    Write = 1,
    /// Reads a register and compares: address, expected value.
    Read = 2,
    /// A run of the SP: its budget.
    SpRun = 3,
    /// A run of the DP and the consumer, each with this budget.
    DpRun = 4,
    /// So many ticks.
    Tick = 5,
    /// The SP meets a BREAK.
    Break = 6,
    /// The DP interrupt is acknowledged.
    Acknowledge = 7,
    /// Stores a word to memory: address, word.
    Store = 8,
    /// Reads a word of memory and compares: address, expected word.
    Check = 9,
    /// A run of all three: the SP's budget in the upper half, that of the DP and the consumer in
    /// the lower.
    Run = 10,
}

impl Kind {
    /// Every kind, by its number.
    pub const ALL: [Kind; 10] = [
        Kind::Write,
        Kind::Read,
        Kind::SpRun,
        Kind::DpRun,
        Kind::Tick,
        Kind::Break,
        Kind::Acknowledge,
        Kind::Store,
        Kind::Check,
        Kind::Run,
    ];

    /// The kind with this number, if there is one.
    pub fn from_number(number: u8) -> Option<Kind> {
        Kind::ALL.into_iter().find(|kind| *kind as u8 == number)
    }
}

impl Record {
    /// A record of this kind. A field that the kind does not have is ignored.
    ///
    /// ```
    /// use ofersky::{registers::SP_RDLEN, Kind, Record};
    ///
    /// let mut bytes = [0; 9];
    /// let record = Record::new(Kind::Write, SP_RDLEN, 0x0F);
    /// assert_eq!(ofersky::write_record(record, &mut bytes, 0).value, 9);
    /// assert_eq!(bytes, [1, 4, 4, 0, 8, 0, 0, 0, 0x0F]);
    /// ```
    pub const fn new(kind: Kind, address: u32, value: u64) -> Record {
        Record {
            value,
            address,
            kind: kind as u8,
        }
    }
}
