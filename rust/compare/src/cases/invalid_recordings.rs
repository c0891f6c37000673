//! Recordings that are not as a replay takes them, and recordings of an exact length.

use crate::cases::addresses::{bad_memory_address, not_register};
use crate::cases::values::unknown_kind;
use crate::data::recording::{pieces, record_length};
use random::Random;

/// One record with a kind that there is not.
pub fn with_bad_kind(random: &mut Random, recording: &[u8]) -> Vec<u8> {
    let mut changed = recording.to_vec();
    let at = random.pick(&starts(recording));
    changed[at] = unknown_kind(random);
    changed
}

/// One record with an address that its kind does not allow, or none where no record has an address.
pub fn with_bad_address(random: &mut Random, recording: &[u8], rdram: usize) -> Option<Vec<u8>> {
    let mut changed = recording.to_vec();
    let addressed = |at: &usize| matches!(recording[*at], 1 | 2 | 8 | 9);
    let has_room = |at: &usize| at + 5 <= recording.len();
    let starts: Vec<usize> = starts(recording)
        .into_iter()
        .filter(|at| addressed(at) && has_room(at))
        .collect();
    if starts.is_empty() {
        return None;
    }
    let at = random.pick(&starts);
    let address = match recording[at] {
        1 | 2 => not_register(random),
        _ => bad_memory_address(random, rdram),
    };
    changed[at + 1..at + 5].copy_from_slice(&address.to_be_bytes());
    Some(changed)
}

/// One to three bytes changed at random places.
pub fn with_changed_bytes(random: &mut Random, recording: &[u8]) -> Vec<u8> {
    let mut changed = recording.to_vec();
    for _ in 0..random.pick(&[1, 1, 1, 2, 3]) {
        let at = random.index(changed.len());
        changed[at] = match random.below(3) {
            0 => changed[at] ^ 1 << random.below(8),
            1 => random.below(13) as u8,
            _ => random.byte(),
        };
    }
    changed
}

fn starts(recording: &[u8]) -> Vec<usize> {
    pieces(recording).iter().map(|piece| piece.start).collect()
}

/// As much of a recording, again and again, as whole records fit; then BREAKs up to the length.
pub fn of_length(recording: &[u8], length: usize) -> Vec<u8> {
    let mut long = Vec::new();
    let pieces = pieces(recording);
    for piece in pieces.iter().cycle() {
        let record = &recording[piece.clone()];
        let whole = record_length(record[0]) == Some(record.len());
        if !whole || long.len() + record.len() > length {
            break;
        }
        long.extend_from_slice(record);
    }
    long.resize(length, 6);
    long
}
