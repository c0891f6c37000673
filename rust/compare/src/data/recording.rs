//! Recordings as bytes, cut into records and numbers.

use std::ops::Range;

/// The longest recording that a replay takes.
pub const LONGEST: usize = 16_383;

/// The bytes of a record of this kind, its kind included, or none.
pub fn record_length(kind: u8) -> Option<usize> {
    match kind {
        1 | 2 => Some(9),
        3..=5 => Some(5),
        6 | 7 => Some(1),
        8 | 9 => Some(13),
        10 => Some(9),
        _ => None,
    }
}

/// The places of the records. What can't be read as a record stands as one piece at the end.
pub fn pieces(recording: &[u8]) -> Vec<Range<usize>> {
    let mut pieces = Vec::new();
    let mut from = 0;
    while from < recording.len() {
        let length = record_length(recording[from]).unwrap_or(usize::MAX);
        let to = from.saturating_add(length).min(recording.len());
        pieces.push(from..to);
        from = to;
    }
    pieces
}

/// The places of the numbers in a recording that it makes sense to lower.
pub fn numbers(recording: &[u8]) -> Vec<Range<usize>> {
    let mut numbers = Vec::new();
    for piece in pieces(recording) {
        let body = piece.start + 1..piece.end;
        match body.len() {
            4 => numbers.push(body),
            8 | 12 => {
                numbers.push(body.start..body.start + 4);
                numbers.push(body.start + 4..body.end);
            }
            _ => {}
        }
    }
    numbers
}

/// The address in the record at this place, of a kind that has one.
pub(crate) fn address_at(recording: &[u8], place: usize) -> u32 {
    let address = recording[place + 1..place + 5].try_into();
    u32::from_be_bytes(address.expect("four bytes"))
}

pub fn hex(bytes: &[u8]) -> String {
    bytes.iter().map(|byte| format!("{byte:02X}")).collect()
}
