//! What the reads and checks of a recording find, as a listing tells it.

use crate::data::recording::pieces;
use ofersky::Findings;
use std::ops::Range;

/// The reads and checks among the first records, each with its index and its bytes.
pub fn compared(recording: &[u8], records: usize) -> Vec<(usize, Range<usize>)> {
    let accepted = pieces(recording).into_iter().take(records).enumerate();
    accepted
        .filter(|(_, piece)| matches!(recording[piece.start], 2 | 9))
        .collect()
}

/// The findings over these reads and checks; a flag says for each whether it differed.
pub fn findings_of(compared: &[(usize, Range<usize>)], differed: &[bool]) -> Findings {
    assert_eq!(compared.len(), differed.len());
    let first = differed.iter().position(|differed| *differed);
    let (index, place) = first.map_or((0, 0), |i| (compared[i].0, compared[i].1.start));
    Findings {
        compared: compared.len() as u32,
        differed: differed.iter().filter(|differed| **differed).count() as u32,
        first_index: index as u32,
        first_place: place,
    }
}

/// The findings of a replay that accepted so many records, as its whole listing tells them.
pub fn listed(recording: &[u8], records: usize, listing: &str) -> Findings {
    let lines = listing.lines();
    let differed: Vec<bool> = lines
        .filter(|line| line.starts_with("R ") || line.starts_with("L "))
        .map(|line| line.contains(" expected "))
        .collect();
    findings_of(&compared(recording, records), &differed)
}
