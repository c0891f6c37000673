//! The register addresses that a call refused or accepted.

use crate::data::call::{Call, Case};
use crate::data::recording::{address_at, pieces};
use crate::sides::observed::Observed;

/// The address that a call refused: its own, or that of the pair or the record.
pub(super) fn refused_address(case: &Case, seen: &Observed) -> u32 {
    match &case.call {
        Call::Read { address } | Call::Write { address, .. } => *address,
        Call::WriteRegisters { addresses, .. } => addresses[seen.outcome.answer.count as usize],
        Call::WriteRecord { record, .. } => record.address,
        Call::ReadRecord { recording, place } => address_at(recording, *place),
        Call::Replay { recording, .. } => address_at(recording, seen.place),
        call => panic!("{} takes no address", call.name()),
    }
}

/// The register addresses that a call accepted: its own, or those of the pairs or the records.
pub(super) fn accessed(case: &Case, seen: &Observed) -> Vec<u32> {
    let accepted = seen.number() == 0;
    let of_record = |recording: &[u8], place: usize| {
        let access = matches!(recording[place], 1 | 2);
        access.then(|| address_at(recording, place))
    };
    match &case.call {
        Call::Read { address } | Call::Write { address, .. } if accepted => vec![*address],
        Call::WriteRegisters { addresses, .. } => {
            addresses[..seen.outcome.answer.count as usize].to_vec()
        }
        Call::WriteRecord { record, .. } if accepted && matches!(record.kind, 1 | 2) => {
            vec![record.address]
        }
        Call::ReadRecord { recording, place } if accepted => {
            of_record(recording, *place).into_iter().collect()
        }
        Call::Replay { recording, .. } => pieces(recording)
            .iter()
            .take(seen.outcome.answer.count as usize)
            .filter_map(|piece| of_record(recording, piece.start))
            .collect(),
        _ => Vec::new(),
    }
}
