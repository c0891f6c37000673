//! Recordings: their records, the writing and the replay of them, and the
//! listing.

use crate::machine::{check_register, load_word, store_word, Counts, Machine, BANK_BYTES};
use std::ops::{Deref, DerefMut};

/// The number for a memory record whose address is not allowed.
pub const ADDRESS_NOT_ALLOWED: u32 = 6;
/// The number for a kind that is none of 1 to 10.
pub const UNKNOWN_KIND: u32 = 7;
/// The number for a record that the recording ends within.
pub const CUT_SHORT: u32 = 8;
/// The number for a recording that is too long.
pub const TOO_LONG: u32 = 9;
/// The number for a record that there is no room to write.
pub const DOES_NOT_FIT: u32 = 14;

/// A recording may have this many bytes and no more.
pub const LONGEST: usize = 16_383;
/// RDRAM of the replay program.
pub const RDRAM_BYTES: usize = 32_768;
/// Output of each run in the replay program.
pub const OUTPUT_BYTES: usize = 2_048;

/// The first address past those allowed for RDRAM in kinds 8 and 9.
const RDRAM_RECORDS_END: u32 = 0x03F0_0000;
const DMEM_BASE: u32 = 0x0400_0000;
const IMEM_BASE: u32 = DMEM_BASE + BANK_BYTES;
const BANKS_END: u32 = IMEM_BASE + BANK_BYTES;

/// One record, in the order of the kinds 1 to 10. An address is kept as recorded,
/// be it a register's first one or a mirror's.
#[derive(Clone, Copy, Debug, PartialEq, Eq)]
pub enum Record {
    Write { address: u32, value: u32 },
    Read { address: u32, expected: u32 },
    SpRun { budget: u32 },
    DpRun { budget: u32 },
    Tick { n: u32 },
    Break,
    Acknowledge,
    Store { address: u32, word: u64 },
    Check { address: u32, expected: u64 },
    Run { sp_budget: u32, dp_budget: u32 },
}

/// What a replay leaves behind beside the machine.
#[derive(Clone, Debug, PartialEq, Eq)]
pub struct Replay {
    /// 0, or the number of the refusal that stopped it.
    pub number: u32,
    /// The records that were done.
    pub count: u32,
    /// Where in the recording the refused record begins. It is 0 if there is
    /// none: in a replay that ends, or is refused before its first record.
    pub place: usize,
    pub findings: Findings,
    pub listing: String,
}

/// What the reads and memory checks of a replay found, over the records that
/// were done. All of it is 0 in a replay that is refused before its first one.
#[derive(Clone, Copy, Debug, Default, PartialEq, Eq)]
pub struct Findings {
    /// How many there were: each is compared with what it expects.
    pub compared: u32,
    /// How many of them found something else.
    pub differed: u32,
    /// The index among all records of the first that differed, from 0 on, and
    /// where in the recording it begins. Both are 0 if none differed.
    pub first_index: u32,
    pub first_place: usize,
}

impl Findings {
    /// Counts a read or a check that was done.
    fn count(&mut self, as_expected: bool, index: u32, place: usize) {
        self.compared += 1;
        if as_expected {
            return;
        }
        if self.differed == 0 {
            self.first_index = index;
            self.first_place = place;
        }
        self.differed += 1;
    }
}

/// The bytes after the kind, or none for a kind that is unknown.
fn body_length(kind: u8) -> Option<usize> {
    match kind {
        1 | 2 => Some(8),
        3..=5 => Some(4),
        6 | 7 => Some(0),
        8 | 9 => Some(12),
        10 => Some(8),
        _ => None,
    }
}

/// The bytes that an address takes at the start of a body.
fn address_length(kind: u8) -> usize {
    match kind {
        1 | 2 | 8 | 9 => 4,
        _ => 0,
    }
}

/// A number of any width, most significant byte first.
fn number(bytes: &[u8]) -> u64 {
    bytes
        .iter()
        .fold(0, |sum, byte| sum << 8 | u64::from(*byte))
}

impl Record {
    /// The record of a kind and its fields. A field that the kind does not have
    /// plays no part; a value of kinds 1 to 5 has 32 bits. The two halves of
    /// kind 10's value are the SP's budget and then the DP's.
    pub fn of(kind: u8, address: u32, value: u64) -> Result<Record, u32> {
        let low = value as u32;
        Ok(match kind {
            1 => Record::Write {
                address,
                value: low,
            },
            2 => Record::Read {
                address,
                expected: low,
            },
            3 => Record::SpRun { budget: low },
            4 => Record::DpRun { budget: low },
            5 => Record::Tick { n: low },
            6 => Record::Break,
            7 => Record::Acknowledge,
            8 => Record::Store {
                address,
                word: value,
            },
            9 => Record::Check {
                address,
                expected: value,
            },
            10 => Record::Run {
                sp_budget: (value >> 32) as u32,
                dp_budget: low,
            },
            _ => return Err(UNKNOWN_KIND),
        })
    }

    /// The record that stands first in these bytes, and how many of them it
    /// takes. Where there is no byte, there is not even a kind: cut short.
    pub fn decode(bytes: &[u8]) -> Result<(Record, usize), u32> {
        let kind = *bytes.first().ok_or(CUT_SHORT)?;
        let length = 1 + body_length(kind).ok_or(UNKNOWN_KIND)?;
        let body = bytes.get(1..length).ok_or(CUT_SHORT)?;
        let (address, value) = body.split_at(address_length(kind));
        let record = Record::of(kind, number(address) as u32, number(value))?;
        Ok((record, length))
    }

    /// The number for an address that this record must not have.
    pub fn check_address(&self) -> Result<(), u32> {
        match *self {
            Record::Write { address, .. } | Record::Read { address, .. } => check_register(address),
            Record::Store { address, .. } | Record::Check { address, .. } => {
                place_of(address).map(|_| ())
            }
            _ => Ok(()),
        }
    }

    /// The bytes of this record.
    pub fn encode(&self) -> Vec<u8> {
        let with = |kind: u8, first: u32| [&[kind], &first.to_be_bytes()[..]].concat();
        match *self {
            Record::Write { address, value } => {
                [with(1, address), value.to_be_bytes().to_vec()].concat()
            }
            Record::Read { address, expected } => {
                [with(2, address), expected.to_be_bytes().to_vec()].concat()
            }
            Record::SpRun { budget } => with(3, budget),
            Record::DpRun { budget } => with(4, budget),
            Record::Tick { n } => with(5, n),
            Record::Break => vec![6],
            Record::Acknowledge => vec![7],
            Record::Store { address, word } => {
                [with(8, address), word.to_be_bytes().to_vec()].concat()
            }
            Record::Check { address, expected } => {
                [with(9, address), expected.to_be_bytes().to_vec()].concat()
            }
            Record::Run {
                sp_budget,
                dp_budget,
            } => [with(10, sp_budget), dp_budget.to_be_bytes().to_vec()].concat(),
        }
    }
}

/// The record at a place of a recording, and the place after it.
pub fn record_at(recording: &[u8], place: usize) -> Result<(Record, usize), u32> {
    check_length(recording)?;
    let rest = recording.get(place..).unwrap_or(&[]);
    let (record, length) = Record::decode(rest)?;
    record.check_address()?;
    Ok((record, place + length))
}

/// Appends a record to a buffer from a place on and gives the place after it.
/// If it gives a number, no byte is changed.
pub fn append(record: Record, buffer: &mut [u8], place: usize) -> Result<usize, u32> {
    record.check_address()?;
    let bytes = record.encode();
    // It may end neither past the buffer nor past the longest recording.
    let room = buffer.len().min(LONGEST);
    let end = place.checked_add(bytes.len()).ok_or(DOES_NOT_FIT)?;
    if end > room {
        return Err(DOES_NOT_FIT);
    }
    buffer[place..end].copy_from_slice(&bytes);
    Ok(end)
}

/// The number for a recording that is too long.
pub fn check_length(recording: &[u8]) -> Result<(), u32> {
    if recording.len() > LONGEST {
        Err(TOO_LONG)
    } else {
        Ok(())
    }
}

/// A memory and the place in it.
enum Place {
    Rdram(u32),
    Dmem(u32),
    Imem(u32),
}

/// What kinds 8 and 9 mean by an address, or the number 6. RDRAM addresses
/// are not cut to 24 bits, so a place may lie past the end of the memory.
fn place_of(address: u32) -> Result<Place, u32> {
    if address & 7 != 0 {
        return Err(ADDRESS_NOT_ALLOWED);
    }
    match address {
        0..RDRAM_RECORDS_END => Ok(Place::Rdram(address)),
        DMEM_BASE..IMEM_BASE => Ok(Place::Dmem(address - DMEM_BASE)),
        IMEM_BASE..BANKS_END => Ok(Place::Imem(address - IMEM_BASE)),
        _ => Err(ADDRESS_NOT_ALLOWED),
    }
}

/// The memory of a place, and the offset in it, or the number 6.
fn memory_at<M>(machine: &mut Machine<M>, address: u32) -> Result<(&mut M, u32), u32> {
    Ok(match place_of(address)? {
        Place::Rdram(offset) => (&mut machine.rdram, offset),
        Place::Dmem(offset) => (&mut machine.dmem, offset),
        Place::Imem(offset) => (&mut machine.imem, offset),
    })
}

/// The word that a memory check finds, or the number 6.
pub fn memory_word<M>(machine: &mut Machine<M>, address: u32) -> Result<u64, u32>
where
    M: Deref<Target = [u8]>,
{
    let (memory, place) = memory_at(machine, address)?;
    Ok(load_word(memory, place))
}

/// The line of a read or a check. Numbers have this many hex digits.
fn compared(letter: char, address: u32, digits: usize, found: u64, expected: u64) -> String {
    if found == expected {
        format!("{letter} {address:08X} {found:0digits$X} ok\n")
    } else {
        format!("{letter} {address:08X} {found:0digits$X} expected {expected:0digits$X}\n")
    }
}

/// The line of what the SP did in a run.
fn sp_line(counts: Counts) -> String {
    format!("S {:08X}\n", counts.moved)
}

/// The line of what the consumer did in a run.
fn dp_line(counts: Counts) -> String {
    format!("D {:08X}\n", counts.consumed)
}

/// A run of a replay, in which the consumer has the same budget as the fetch.
/// Its output is its own, and nobody looks at the words.
fn run<M>(machine: &mut Machine<M>, sp_budget: u32, dp_budget: u32) -> Counts
where
    M: DerefMut<Target = [u8]>,
{
    let consumer_budget = dp_budget;
    let output = &mut [0; OUTPUT_BYTES];
    machine.run(sp_budget, dp_budget, consumer_budget, output)
}

/// What is seen of a record that was done.
#[derive(Clone, Debug, Default, PartialEq, Eq)]
pub struct Done {
    /// Its part of the listing, which may be empty or two lines.
    pub line: String,
    /// Of a read or a check: whether it found what it expects.
    pub as_expected: Option<bool>,
}

/// Does one record. If it gives a number, nothing of the record is done.
pub fn apply<M>(machine: &mut Machine<M>, record: Record) -> Result<Done, u32>
where
    M: DerefMut<Target = [u8]>,
{
    let mut line = String::new();
    let mut as_expected = None;
    match record {
        Record::Write { address, value } => machine.write(address, value)?,
        Record::Read { address, expected } => {
            let found = machine.read(address)?;
            line = compared('R', address, 8, found.into(), expected.into());
            as_expected = Some(found == expected);
        }
        Record::SpRun { budget } => line = sp_line(run(machine, budget, 0)),
        Record::DpRun { budget } => line = dp_line(run(machine, 0, budget)),
        Record::Run {
            sp_budget,
            dp_budget,
        } => {
            let counts = run(machine, sp_budget, dp_budget);
            line = sp_line(counts) + &dp_line(counts);
        }
        Record::Tick { n } => machine.tick(n),
        Record::Break => machine.break_(),
        Record::Acknowledge => machine.acknowledge(),
        Record::Store { address, word } => {
            let (memory, place) = memory_at(machine, address)?;
            store_word(memory, place, word);
        }
        Record::Check { address, expected } => {
            let found = memory_word(machine, address)?;
            line = compared('L', address, 16, found, expected);
            as_expected = Some(expected == found);
        }
    }
    Ok(Done { line, as_expected })
}

/// Reads and does the record that stands first in these bytes. Gives what is
/// seen of it and the bytes it took.
fn step<M>(machine: &mut Machine<M>, bytes: &[u8]) -> Result<(Done, usize), u32>
where
    M: DerefMut<Target = [u8]>,
{
    let (record, length) = Record::decode(bytes)?;
    Ok((apply(machine, record)?, length))
}

/// The listing's first line.
const HEADER: &str = "replay 1\n";

/// The listing's last line.
fn last_line(number: u32, count: u32, place: usize) -> String {
    if number == 0 {
        format!("end {count}\n")
    } else {
        format!("stop {count} {number} {place}\n")
    }
}

/// A replay that is refused before its first record.
pub fn refused(number: u32) -> Replay {
    Replay {
        number,
        count: 0,
        place: 0,
        findings: Findings::default(),
        listing: HEADER.to_string() + &last_line(number, 0, 0),
    }
}

/// Replays a recording. It stops at the first record that is refused, and
/// what the records before it did stays done.
pub fn replay<M>(machine: &mut Machine<M>, recording: &[u8]) -> Replay
where
    M: DerefMut<Target = [u8]>,
{
    if let Err(number) = check_length(recording) {
        return refused(number);
    }
    let mut listing = HEADER.to_string();
    let mut number = 0;
    let mut count = 0;
    let mut place = 0;
    let mut findings = Findings::default();
    let mut rest = recording;
    while number == 0 && !rest.is_empty() {
        match step(machine, rest) {
            Ok((done, length)) => {
                listing += &done.line;
                if let Some(as_expected) = done.as_expected {
                    findings.count(as_expected, count, recording.len() - rest.len());
                }
                rest = &rest[length..];
                count += 1;
            }
            Err(refusal) => {
                number = refusal;
                place = recording.len() - rest.len();
            }
        }
    }
    listing += &last_line(number, count, place);
    Replay {
        number,
        count,
        place,
        findings,
        listing,
    }
}
