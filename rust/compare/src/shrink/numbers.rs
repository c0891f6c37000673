//! The numbers of a case that can be lowered, each read and set.

use crate::data::call::{Call, Case};
use crate::data::recording::numbers;
use crate::data::state_fields::FIELDS;
use crate::data::verdicts::NUMBERS;
use std::ops::Range;

/// A number of a case that can be lowered.
#[derive(Clone, Debug)]
pub(super) enum Number {
    Field(usize),
    Rdram,
    Dmem,
    Imem,
    Fill,
    Argument(usize),
    /// A number of a struct that is judged.
    Judged(usize),
    Bytes(Range<usize>),
    /// An address and a value of a burst.
    Address(usize),
    Value(usize),
    /// The bytes of a buffer before the place of the record, which moves with them.
    Before,
    /// Whether a buffer has a byte that is not zero.
    Filled,
}

/// The length of the output or the buffer.
pub(super) const OUT: Number = Number::Argument(1);

/// The numbers that the time of a call hangs on.
pub(super) fn sizes() -> Vec<Number> {
    vec![Number::Rdram, Number::Fill, Number::Before, OUT]
}

pub(super) fn all_numbers(case: &Case) -> Vec<Number> {
    let mut all: Vec<Number> = (0..FIELDS.len()).map(Number::Field).collect();
    all.extend([Number::Dmem, Number::Imem, Number::Filled]);
    all.extend([0, 2, 3, 4].map(Number::Argument));
    all.push(OUT);
    if let Call::Verdict { .. } = case.call {
        all.extend((0..NUMBERS.len()).map(Number::Judged));
    }
    all.extend(numbers(recording(case)).into_iter().map(Number::Bytes));
    let [addresses, values] = case.call.pairs();
    all.extend((0..addresses.len()).map(Number::Address));
    all.extend((0..values.len()).map(Number::Value));
    all
}

pub(super) fn get(case: &Case, number: &Number) -> u64 {
    match number {
        Number::Field(i) => (FIELDS[*i].get)(&case.state),
        Number::Rdram => case.lent.rdram as u64,
        Number::Dmem => case.lent.dmem as u64,
        Number::Imem => case.lent.imem as u64,
        Number::Fill => case.lent.fill,
        Number::Argument(i) => argument(&case.call, *i),
        Number::Judged(i) => match &case.call {
            Call::Verdict { replayed } => (NUMBERS[*i].get)(replayed),
            _ => 0,
        },
        Number::Bytes(range) => recording(case)[range.clone()]
            .iter()
            .fold(0, |sum, byte| sum << 8 | u64::from(*byte)),
        Number::Address(i) => u64::from(case.call.pairs()[0][*i]),
        Number::Value(i) => u64::from(case.call.pairs()[1][*i]),
        Number::Before => before(&case.call),
        Number::Filled => match &case.call {
            Call::WriteRecord { buffer, .. } => buffer.iter().any(|byte| *byte != 0).into(),
            _ => 0,
        },
    }
}

pub(super) fn set(case: &mut Case, number: &Number, value: u64) {
    match number {
        Number::Field(i) => (FIELDS[*i].set)(&mut case.state, value),
        Number::Rdram => case.lent.rdram = value as usize,
        Number::Dmem => case.lent.dmem = value as usize,
        Number::Imem => case.lent.imem = value as usize,
        Number::Fill => case.lent.fill = value,
        Number::Argument(i) => set_argument(&mut case.call, *i, value),
        Number::Judged(i) => {
            if let Call::Verdict { replayed } = &mut case.call {
                (NUMBERS[*i].set)(replayed, value);
            }
        }
        Number::Bytes(range) => {
            let bytes = value.to_be_bytes();
            let bytes = &bytes[8 - range.len()..];
            if let Some(recording) = recording_mut(case) {
                recording[range.clone()].copy_from_slice(bytes);
            }
        }
        Number::Address(i) => {
            if let Call::WriteRegisters { addresses, .. } = &mut case.call {
                addresses[*i] = value as u32;
            }
        }
        Number::Value(i) => {
            if let Call::WriteRegisters { values, .. } = &mut case.call {
                values[*i] = value as u32;
            }
        }
        Number::Before => set_before(&mut case.call, value as usize),
        Number::Filled => {
            if let Call::WriteRecord { buffer, .. } = &mut case.call {
                buffer.fill(0);
            }
        }
    }
}

pub(super) fn recording(case: &Case) -> &[u8] {
    match &case.call {
        Call::Replay { recording, .. } | Call::ReadRecord { recording, .. } => recording,
        _ => &[],
    }
}

pub(super) fn recording_mut(case: &mut Case) -> Option<&mut Vec<u8>> {
    match &mut case.call {
        Call::Replay { recording, .. } | Call::ReadRecord { recording, .. } => Some(recording),
        _ => None,
    }
}

/// The place of a record to be written, if it is in the buffer or at its end.
fn before(call: &Call) -> u64 {
    match call {
        Call::WriteRecord { buffer, place, .. } if *place <= buffer.len() => *place as u64,
        _ => 0,
    }
}

fn set_before(call: &mut Call, to: usize) {
    if let Call::WriteRecord { buffer, place, .. } = call {
        buffer.drain(to..*place);
        *place = to;
    }
}

/// A number among the arguments of a call. Addresses of register calls are not lowered: a register
/// is not simpler than another.
fn argument(call: &Call, i: usize) -> u64 {
    match (call, i) {
        (Call::Write { value, .. }, 0) => u64::from(*value),
        (Call::Tick { n }, 0) => u64::from(*n),
        (Call::Run { budgets, .. }, 0 | 2 | 4) => u64::from(budgets[i / 2]),
        (Call::ReadRecord { place, .. } | Call::WriteRecord { place, .. }, 0) => *place as u64,
        (Call::Run { out, .. } | Call::Replay { out, .. }, 1) => *out as u64,
        (Call::WriteRecord { buffer, .. }, 1) => buffer.len() as u64,
        (Call::WriteRecord { record, .. }, 2) => record.value,
        (Call::WriteRecord { record, .. }, 3) => u64::from(record.address),
        _ => 0,
    }
}

fn set_argument(call: &mut Call, i: usize, to: u64) {
    match (call, i) {
        (Call::Write { value, .. }, 0) => *value = to as u32,
        (Call::Tick { n }, 0) => *n = to as u32,
        (Call::Run { budgets, .. }, 0 | 2 | 4) => budgets[i / 2] = to as u32,
        (Call::ReadRecord { place, .. } | Call::WriteRecord { place, .. }, 0) => {
            *place = to as usize
        }
        (Call::Run { out, .. } | Call::Replay { out, .. }, 1) => *out = to as usize,
        (Call::WriteRecord { buffer, .. }, 1) => buffer.truncate(to as usize),
        (Call::WriteRecord { record, .. }, 2) => record.value = to,
        (Call::WriteRecord { record, .. }, 3) => record.address = to as u32,
        _ => {}
    }
}
