//! The sequences of a pass, by what a recording has in it.

use crate::generator::{Generator, Traffic};

/// Writes a few records about one subject.
pub(crate) type Sequence = fn(&mut Generator);

/// Each pass goes through all of these; some stand here twice.
const SEQUENCES: [Sequence; 22] = [
    Generator::transfer,
    Generator::waiting_transfers,
    Generator::waiting_transfers,
    Generator::sp_status,
    Generator::breaks,
    Generator::semaphore,
    Generator::memory,
    Generator::every_register_read,
    Generator::every_register_written,
    Generator::list_in_rdram,
    Generator::list_in_dmem,
    Generator::waiting_lists,
    Generator::list_left_in_mid_command,
    Generator::sync_full,
    Generator::sync_full,
    Generator::freeze,
    Generator::flush,
    Generator::moved_end,
    Generator::dp_status,
    Generator::long_list,
    Generator::counters,
    Generator::mixed,
];

/// These stand beside them where runs of both engines are made.
const MERGED_SEQUENCES: [Sequence; 3] = [
    Generator::list_and_transfer,
    Generator::list_and_transfer,
    Generator::list_and_transfer,
];

/// And these where words are to stay queued.
const QUEUE_SEQUENCES: [Sequence; 12] = [Generator::words_stay_queued; 12];

/// The sequences of a pass. Those with words that stay queued have runs of both engines, too.
pub(crate) fn sequences(traffic: Traffic) -> Vec<Sequence> {
    let mut sequences = SEQUENCES.to_vec();
    if traffic != Traffic::Plain {
        sequences.extend(MERGED_SEQUENCES);
    }
    if traffic == Traffic::Queue {
        sequences.extend(QUEUE_SEQUENCES);
    }
    sequences
}
