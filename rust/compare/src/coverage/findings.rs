//! Replays whose findings say more than their verdict does.

use crate::data::findings::compared;
use crate::sides::observed::Observed;

/// The replays whose findings say more than their verdict does.
#[derive(Clone, Copy, Debug, Default)]
pub struct FindingCounts {
    /// They stopped, and had found a difference before.
    pub stopped: u64,
    /// They stopped at a read or a check, which is not counted.
    pub uncounted: u64,
    /// The first that differed was not the first compared.
    pub later: u64,
    /// More than one differed.
    pub several: u64,
}

impl FindingCounts {
    pub(super) fn count(&mut self, recording: &[u8], seen: &Observed) {
        let found = seen.findings;
        let records = seen.outcome.answer.count as usize;
        let differed = found.differed > 0;
        let first = compared(recording, records).first().map(|first| first.0);
        // A replay that was refused before its first record stopped at none.
        let refused = match seen.number() {
            0..=4 | 9 => None,
            _ => Some(recording[seen.place]),
        };
        self.stopped += u64::from(refused.is_some() && differed);
        self.uncounted += u64::from(matches!(refused, Some(2 | 9)));
        self.later += u64::from(differed && first != Some(found.first_index as usize));
        self.several += u64::from(found.differed > 1);
    }

    pub(super) fn add(&mut self, other: &FindingCounts) {
        self.stopped += other.stopped;
        self.uncounted += other.uncounted;
        self.later += other.later;
        self.several += other.several;
    }
}
